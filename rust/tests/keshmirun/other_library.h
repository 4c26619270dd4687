/* A library that has functions of the paper's names. Used by own_names.c. */
int check(int value);
int start(void);
int sheet(void);
int pick(void);
int step(int value);
int finish(void);
int why(void);
