/* Calls that end a function: jumps to functions of the object and outside, some behind a frame that is taken down first. */
extern int out(int, ...);
extern int done(void *);
extern void release(void *);

struct work {
	int (*act)(struct work *);
	int left, state;
};

__attribute__((noinline)) int finish(struct work *w)
{
	w->state = 3;
	return done(w);
}

int step(struct work *w)
{
	if (--w->left > 0)
		return w->act(w);
	return finish(w);
}

int stepped(struct work *w)
{
	int told = out(w->left, w->state);

	if (told < 0) {
		release(w);
		return told;
	}
	w->state += told;
	return step(w);
}

int framed(struct work *w)
{
	struct work copy = *w;

	if (out(1, &copy) == 0)
		return finish(w);
	*w = copy;
	return stepped(w);
}
