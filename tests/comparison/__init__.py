"""What holds the library to the reference: one comparison for each call, and what they share."""
