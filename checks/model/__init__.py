"""The program compared with the model, lab/model: the cases, what they have to meet, and the runs."""
