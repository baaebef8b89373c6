"""How often cells are covered in a frame."""
