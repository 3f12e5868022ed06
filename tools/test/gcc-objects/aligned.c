/* Frames that are aligned to more than the stack is: rsp is rounded down, and rbp tells where the frame is. */
extern int fill(void *, unsigned long);

int one_line(int n)
{
	char line[64] __attribute__((aligned(64)));

	fill(line, n);
	return line[n];
}

int two_lines(int n, long *sum)
{
	struct {
		long xs[8];
	} first __attribute__((aligned(128))), second __attribute__((aligned(64)));

	if (fill(&first, n) && fill(&second, n))
		*sum = first.xs[n] + second.xs[n];
	else
		*sum = fill(sum, 1);
	return fill(sum, n);
}
