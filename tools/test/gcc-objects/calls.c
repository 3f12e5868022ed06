/* Calls in and out of the object, with what they keep across them; small static functions, of which gcc makes clones. */
extern int out(int, ...);
extern void log_word(const char *);
static int calls;
static const char *const words[] = { "one", "two", "three" };

static __attribute__((noinline)) int once(int a)
{
	return out(a, words[a % 3]) + ++calls;
}

static __attribute__((noinline)) int scaled(const int *a, int by)
{
	return out(*a * by) - *a;
}

int twice(int a)
{
	int first = once(a);

	return first ^ once(first);
}

int chain(int a, int b, int c)
{
	int x = once(a), y = once(b), z = once(c);

	log_word(words[0]);
	return x * y + z;
}

int with_address(int a)
{
	int kept = a;

	return scaled(&kept, 7) + scaled(&a, 7);
}

__attribute__((weak)) int may_be(int a)
{
	return a ? once(a) : 0;
}

int asks(int a)
{
	return may_be(a) + may_be(a + 1);
}
