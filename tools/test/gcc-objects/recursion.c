/* Functions that call themselves and one another. */
struct tree {
	struct tree *left, *right;
	long key;
};

extern int visit(const struct tree *);

__attribute__((noinline)) long depth(const struct tree *t)
{
	if (!t)
		return 0;
	long left = depth(t->left), right = depth(t->right);

	return 1 + (left > right ? left : right);
}

int walk(const struct tree *t)
{
	if (!t)
		return 0;
	int told = walk(t->left);

	if (told || (told = visit(t)))
		return told;
	return walk(t->right);
}

int is_odd(unsigned int n);

__attribute__((noinline)) int is_even(unsigned int n)
{
	return n == 0 ? visit(0) : is_odd(n - 1) + 1;
}

__attribute__((noinline)) int is_odd(unsigned int n)
{
	return n == 0 ? 0 : is_even(n - 1) - 1;
}

__attribute__((noinline)) unsigned long ackermann(unsigned long m, unsigned long n)
{
	if (m == 0)
		return n + 1;
	if (n == 0)
		return ackermann(m - 1, 1);
	return ackermann(m - 1, ackermann(m, n - 1));
}
