/*
 * Routines whose prologues are checked as compilers for MIPS make them. The
 * file prologues has the frame of each and the verdict on its prologue. This is
 * never linked.
 */

extern void nothing(void);
extern int other(int number);
extern int other_of_5(int a, int b, int c, int d, int e);
extern int other_of_memory(const int *numbers);
extern float other_single(float number);
extern double other_double(double number);

int leaf(int a, int b);
int leaf_with_locals(int a);
void leaf_saves_16(void);
void leaf_saves_17(void);
void leaf_saves_16_17(void);
void leaf_saves_all(void);
void leaf_saves_pair(void);
void leaf_saves_odd(void);
void calls(void);
int calls_keeps_1(int a);
int calls_keeps_2(int a, int b);
int calls_keeps_3(int a, int b, int c);
int calls_with_5(int a);
int calls_with_locals(int a);
float calls_keeps_singles(float a, float b);
double calls_keeps_double(double a);

int leaf(int a, int b)
{
    return a + b;
}

int leaf_with_locals(int a)
{
    volatile int numbers[4];
    numbers[a & 3] = a;
    return numbers[0];
}

/* A leaf saves just the registers that it changes, or claims to change. */

void leaf_saves_16(void)
{
    __asm__ volatile("" : : : "$16");
}

void leaf_saves_17(void)
{
    __asm__ volatile("" : : : "$17");
}

void leaf_saves_16_17(void)
{
    __asm__ volatile("" : : : "$16", "$17");
}

#ifdef __OPTIMIZE__
/* Without optimization $30 is the frame pointer, which stays. */
void leaf_saves_all(void)
{
    __asm__ volatile("" : : : "$16", "$17", "$18", "$19", "$20", "$21", "$22",
                     "$23", "$30", "$31");
}
#endif

void leaf_saves_pair(void)
{
    __asm__ volatile("" : : : "$f20", "$f21");
}

void leaf_saves_odd(void)
{
    __asm__ volatile("" : : : "$f21");
}

/* What is used behind a call stays in registers that are saved. */

void calls(void)
{
    nothing();
    nothing();
}

int calls_keeps_1(int a)
{
    return other(a) + a;
}

int calls_keeps_2(int a, int b)
{
    other(0);
    other(a);
    return other(b) + 1;
}

int calls_keeps_3(int a, int b, int c)
{
    other(0);
    other(a);
    other(b);
    return other(c) + 1;
}

int calls_with_5(int a)
{
    return other_of_5(a, 2, 3, 4, 5) + a;
}

int calls_with_locals(int a)
{
    int numbers[2] = {a, a};
    return other_of_memory(numbers) + a;
}

float calls_keeps_singles(float a, float b)
{
    return other_single(a) * a + b;
}

double calls_keeps_double(double a)
{
    return other_double(a) * a;
}
