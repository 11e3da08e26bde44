"""The two callers, whose limits a filter is lowered within: the planner and the camera's controller."""
from model import limits

PLANNER, CONTROLLER = 'planner', 'controller'
ARGUMENTS = {PLANNER: (), CONTROLLER: ('controller',)}    # of the program `lower`, before those of a writing
LIMITS = {PLANNER: limits.PLANNER, CONTROLLER: limits.CONTROLLER}
WHOSE = {PLANNER: '', CONTROLLER: ", the controller's limit"}    # said after a limit
