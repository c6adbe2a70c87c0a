# Loads 5 into r3 and stays where it is: the run whose text is in `stdout`.
li r3,5
b .
