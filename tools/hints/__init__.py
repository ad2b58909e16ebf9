"""What tools/hint says: of refused texts (wirings) and of judged histories."""
