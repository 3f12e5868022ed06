/* A function that keeps more values than there are registers that a call may change: it pushes what it needs, and stores through a
 * pointer. */
struct state { unsigned long a, b, c, d, e, f, g; };

void mix(struct state *s, unsigned long key)
{
	unsigned long a = s->a + key, b = s->b ^ key, c = s->c, d = s->d;
	unsigned long e = s->e, f = s->f;

	a += b * 3; b ^= c << 7; c -= d; d += e >> 3;
	e ^= f + key; f += a * 5;
	s->a = a ^ e; s->b = b + f; s->c = c ^ a; s->d = d + b;
	s->e = e + a; s->f = f ^ b;
	s->g = a * b + c * d;
}
