/*
 * Assembler within functions, which pushes and pops. The assembler's own lines say in .eh_frame how the frame's top moves,
 * where rbp isn't the base of the frame: -DFRAMES says that it is. Each function calls, since gcc sets up no frame pointer
 * where nothing is called.
 */
#ifdef FRAMES
#define DEEPER ""
#define BACK ""
#else
#define DEEPER "\n\t.cfi_adjust_cfa_offset 8\n\t"
#define BACK "\n\t.cfi_adjust_cfa_offset -8\n\t"
#endif

extern int out(int, ...);

static inline unsigned long flags(void)
{
	unsigned long f;

	asm volatile("pushf" DEEPER "\n\tpop %0" BACK : "=r"(f) : : "memory");
	return f;
}

static inline void set_flags(unsigned long f)
{
	asm volatile("push %0" DEEPER "\n\tpopf" BACK : : "r"(f) : "memory", "cc");
}

int without_interrupts(int a)
{
	unsigned long f = flags();
	int told;

	asm volatile("cli" : : : "memory");
	told = out(a);
	set_flags(f);
	return told;
}

unsigned int cpuid(unsigned int leaf, unsigned int *b)
{
	unsigned int a = leaf, c = 0, d;

	asm volatile("push %%rbx" DEEPER "\n\tcpuid\n\tmov %%ebx, %%esi\n\tpop %%rbx" BACK
		     : "+a"(a), "=S"(*b), "+c"(c), "=d"(d) : : "memory");
	return a ^ c ^ out(d);
}

long swapped(long a, long b)
{
	asm volatile("push %0" DEEPER "\n\tpush %1" DEEPER "\n\tpop %0" BACK "\n\tpop %1" BACK : "+r"(a), "+r"(b));
	return out(a - b) + (flags() & 1);
}

int looped(int n)
{
	int told = 0;

	for (int i = 0; i < n; i++) {
		unsigned long f = flags();

		told += out(i, f);
		if (f & 0x200)
			set_flags(f | 1);
	}
	return told;
}
