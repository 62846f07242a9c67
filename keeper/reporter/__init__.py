"""The reporter: what `radio_keeper run` shows and says of itself. It may die at any moment."""
