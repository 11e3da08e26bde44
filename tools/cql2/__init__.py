"""CQL2-JSON filters for people: read, encoded to document 01's records, lowered by the proved program, and run on a GeoPackage."""
