/*
 * Frames of some hundred and of some thousand bytes. No frame has a length that only the run decides, as of a variable
 * array or alloca: gcc subtracts a register from rsp there, and the check answers rule 7 (unsupported write of rsp), since
 * it follows no other register.
 */
extern int fill(void *, unsigned long);

int small(void)
{
	char room[24];

	fill(room, sizeof room);
	return room[3];
}

int middling(int n)
{
	long room[40];

	return fill(room, n) ? room[n] : -1;
}

int large(int n)
{
	char room[20000];

	if (fill(room, n) < 0)
		return -1;
	return room[n] + fill(room + n, n);
}

int scoped(int n)
{
	int told = 0;

	if (n > 3) {
		char room[3000];

		told = fill(room, n);
		for (int i = 0; i < n; i++)
			told += room[i];
	} else {
		int few[7];

		told = fill(few, sizeof few) - few[n];
	}
	return told;
}
