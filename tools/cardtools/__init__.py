"""What the tools share: the session file of document 01, its text, and its words; and how they are called."""
