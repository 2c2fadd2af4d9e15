"""The parts of samples/audit/report. They share no code with the program, and import nothing but
Python's standard library."""
