/* Calls with more arguments than registers take: the others are pushed, and dropped behind the call. */
struct three {
	long a, b, c;
};

extern long seven(int, int, int, int, int, int, int);
extern long ten(int, long, int, long, int, long, int, long, int, long);
extern long by_value(struct three, int);
extern int out(int, ...);

long once(int a)
{
	return seven(1, 2, 3, 4, 5, a, a + 1);
}

long again(int a, int b)
{
	long x = seven(a, b, a, b, a, b, a);

	return x + ten(1, 2, 3, 4, 5, 6, a, b, a + b, x);
}

long nested(int a)
{
	return seven(a, out(a), 3, 4, 5, 6, seven(a, 2, 3, 4, 5, out(6), a));
}

long given(int a, int b, int c, int d, int e, int f, int g, long h, long i)
{
	return ten(a, b, c, d, e, f, g, h, i, a) - h;
}

long passed(struct three t, int a)
{
	struct three other = { t.c, t.b, t.a };

	return by_value(t, a) + by_value(other, 2);
}

int worded(int a, int b)
{
	for (int i = 0; i < a; i++)
		if (out(1, 2, 3, 4, 5, 6, i, b, a))
			return out(9, 8, 7, 6, 5, 4, 3, 2);
	return 0;
}
