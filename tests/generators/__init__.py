"""What makes inputs: builders and generators of objects, changes to them, cases with answers by hand, objects made by others."""
