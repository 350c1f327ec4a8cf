"""gx beside a real database: a script of gx is run on a live server too, and the answers are compared."""
