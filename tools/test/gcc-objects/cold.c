/*
 * Parts that are seldom executed, which gcc puts into .text.unlikely as NAME.cold: jumps there and back amid a frame, and
 * calls that don't return. panic is among the names that never return; a function of another name would have to be listed.
 */
extern int out(int, ...);
extern void warn(const char *, ...) __attribute__((cold));
extern void panic(const char *, ...) __attribute__((cold, noreturn));

int guarded(int a, int b)
{
	if (__builtin_expect(a < 0, 0)) {
		warn("below zero", a);
		out(7, a);
		a = -a;
	}
	return out(a, b) + b;
}

int checked(const int *p, int n)
{
	int sum = 0;

	for (int i = 0; i < n; i++) {
		if (__builtin_expect(p[i] > 1000, 0))
			panic("too much at %d", i);
		sum += out(p[i]);
	}
	if (__builtin_expect(!sum, 0)) {
		warn("nothing");
		return out(-1);
	}
	return sum;
}

static __attribute__((noinline)) int large(int a, int b)
{
	char room[200];

	if (__builtin_expect(out(a, room), 0)) {
		warn(room);
		warn("and", b);
		return out(b, room) - 1;
	}
	return room[a];
}

int both(int a)
{
	return large(a, 3) + large(a + 1, 3);
}

__attribute__((cold)) int seldom(int a)
{
	return out(a) + out(a + 1);
}
