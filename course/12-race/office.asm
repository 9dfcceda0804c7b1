; The office, which is task 5. The tills may ask it for something; it does nothing yet.

GLOBAL 1 start
start:  RTN
