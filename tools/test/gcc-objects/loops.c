/* Loops with one exit, with several, and within one another; some with calls, whose registers are saved. */
struct node {
	struct node *next;
	unsigned long key;
	unsigned char tag;
};

extern int out(int, ...);

unsigned long total(const struct node *n)
{
	unsigned long sum = 0;

	for (; n; n = n->next)
		sum += n->key * (n->tag + 3ul) ^ (sum >> 7);
	return sum;
}

int find(const unsigned int *xs, int n, unsigned int x)
{
	int low = 0, high = n;

	while (low < high) {
		int middle = low + (high - low) / 2;

		if (xs[middle] < x)
			low = middle + 1;
		else
			high = middle;
	}
	return low < n && xs[low] == x ? low : -1;
}

int each(const struct node *n, int most)
{
	int told = 0;

	for (; n && told < most; n = n->next) {
		if (n->tag == 0xff)
			continue;
		if (out(told, n->key) < 0)
			return -1;
		told++;
	}
	return told;
}

void sorted(unsigned long *xs, int n)
{
	for (int i = 1; i < n; i++)
		for (int j = i; j > 0 && xs[j] < xs[j - 1]; j--) {
			unsigned long x = xs[j];

			xs[j] = xs[j - 1];
			xs[j - 1] = x;
			out(i, j);
		}
}
