"""Functions of the API server's CEL library as our definitions have them, and texts for them."""
