/*
 * As many registers as there are to keep across calls, rbp among them where it isn't the frame pointer, and a frame that is
 * only set up where it is needed.
 */
extern int out(int, ...);

struct state {
	unsigned long a, b, c, d, e, f, g;
};

void mix(struct state *s, unsigned long key)
{
	unsigned long a = s->a + key, b = s->b ^ key, c = s->c, d = s->d;
	unsigned long e = s->e, f = s->f;

	a += b * 3; b ^= c << 7; c -= d; d += e >> 3;
	e ^= f + key; f += a * 5;
	s->a = a ^ e; s->b = b + f; s->c = c ^ a; s->d = d + b;
	s->e = e + a; s->f = f ^ b;
	s->g = a * b + c * d;
}

int all(int a, int b, int c, int d, int e, int f)
{
	int x = out(a), y = out(b, x), z = out(c, y);

	x += out(d, y); y += out(e, z); z += out(f, x);
	return (x ^ a) + (y ^ b) + (z ^ c) + (x * d) + (y * e) + (z * f);
}

int early(const int *p, int n)
{
	if (!p)
		return -1;
	if (n == 0)
		return *p;
	int sum = 0;

	for (int i = 0; i < n; i++)
		sum += out(p[i], i, n);
	return sum * n;
}

int spilled(const int *p)
{
	int a = p[0], b = p[1], c = p[2], d = p[3], e = p[4], f = p[5], g = p[6], h = p[7];

	out(1, p);
	return a * out(b) + c * out(d) + e * out(f) + g * out(h) + (a ^ h);
}
