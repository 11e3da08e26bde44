"""The log that ./demo makes."""
