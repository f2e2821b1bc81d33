"""What the tools beside lore share: limits, tokens and grammar, refusals and their places, texts and labels, dumps, literals,
replies, the talk with the program, and data on its way in and out."""
