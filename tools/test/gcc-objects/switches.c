/* Switches, which are chains of comparisons where no jump table is allowed, and a computed return. */
extern int out(int, ...);
extern int shared;

int pick(int a, int b)
{
	switch (a) {
	case 0: return out(1, b);
	case 1: return b << 3;
	case 2: return b % 7 + shared;
	case 3: return out(2, a, b) - b;
	case 4: return b > 9 ? -b : b;
	case 5: return out(5, b) * 3;
	case 7: shared = b; /* fall through */
	case 9: return out(9);
	default: return out(3);
	}
}

const char *name_of(unsigned int kind)
{
	switch (kind) {
	case 3: return "three";
	case 17: return "seventeen";
	case 90: return "ninety";
	case 1000: return "thousand";
	}
	return 0;
}

int run(const unsigned char *code, int n, long *stack)
{
	long *top = stack;

	for (int i = 0; i < n; i++) {
		switch (code[i]) {
		case 'p': *top++ = code[++i]; break;
		case '+': top--; top[-1] += *top; break;
		case '*': top--; top[-1] *= *top; break;
		case '?': if (!*--top) i += code[i + 1]; break;
		case 'o': out(*--top); break;
		case 'e': return *--top;
		default: return out(-1, code[i]);
		}
	}
	return 0;
}
