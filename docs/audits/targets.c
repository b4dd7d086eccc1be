typedef unsigned long u; typedef __SIZE_TYPE__ sz;
extern int ext(int, ...); extern void *alloc(sz); extern void use(void *);
struct S { int a; double d[5]; float f; long long ll; char c[17]; struct S *next; };
static int table[64];
int sum(struct S *s, int n) { int r = 0; for (int i = 0; i < n; i++) { r += s[i].a * table[i & 63]; s[i].d[i % 5] += s[i].f; } return r; }
struct S copy(struct S *s) { struct S t = *s; t.a++; use(&t); return t; }
int sw(int x) { switch (x) { case 1: return ext(5); case 2: return 9; case 7: return 44; case 12: return ext(3, 4); case 100: return 8; case 101: return 12; case 102: return 99; } return 0; }
double fp(double *a, float *b, int n) { double s = 0; for (int i = 0; i < n; i++) { s += a[i] * b[i]; b[i] = (float)s / (a[i] + 1); } return s; }
long long wide(long long a, long long b) { return a * b / (b | 1) + (a << (b & 63)) + (b >> (a & 31)); }
int va(int n, ...) { __builtin_va_list l; __builtin_va_start(l, n); int s = 0; while (n--) s += __builtin_va_arg(l, int) + (int)__builtin_va_arg(l, double); __builtin_va_end(l); return s; }
void *dyn(int n) { char *p = __builtin_alloca(n); use(p); return p[3] ? alloc(n) : 0; }
int atom(int *p) { __atomic_fetch_add(p, 3, __ATOMIC_SEQ_CST); int e = 3; __atomic_compare_exchange_n(p, &e, 4, 0, __ATOMIC_SEQ_CST, __ATOMIC_SEQ_CST); return e; }
_Thread_local int tl; int *gettl(void) { tl++; return &tl; }
int list(struct S *s) { int n = 0; while (s) { if (s->a > 3) n += s->c[n & 15]; else if (s->ll) ext(n, s->d[2]); s = s->next; } return n; }
void fill(int *p, int n, int v) { for (int i = 0; i < n; i++) p[i] = v; for (int i = 0; i < n; i++) if (p[i] > 3) p[i] = p[i] * 3 - v; }
int rec(int n) { return n < 2 ? n : rec(n - 1) + rec(n - 2); }
void big(void) { int a[5000]; use(a); ext(a[3], a[4999], 1, 2, 3, 4, 5, 6, 7, 8, 9, 10.0); }
u bits(u x) { return __builtin_popcountl(x) + __builtin_clzl(x | 1) + __builtin_bswap32((unsigned)x) + (x << 3 | x >> (sizeof x * 8 - 3)); }
