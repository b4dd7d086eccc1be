#include <vector>
#include <map>
#include <string>
#include <algorithm>
#include <iostream>
#include <regex>
struct S { std::string a; std::map<int, std::vector<std::string>> m; double d[7]; };
int sum(const std::vector<S>& v) { int n = 0; for (auto& s : v) for (auto& p : s.m) { n += p.first; for (auto& t : p.second) n += t.size() * s.d[p.first % 7]; } return n; }
void sortit(std::vector<S>& v) { std::stable_sort(v.begin(), v.end(), [](const S& a, const S& b) { return a.a < b.a; }); std::partial_sort(v.begin(), v.begin() + v.size() / 2, v.end(), [](auto& a, auto& b) { return a.d[0] < b.d[0]; }); }
bool match(const std::string& s) { static std::regex r("(a|b)*c+[^x-z]{2,5}"); return std::regex_search(s, r); }
int sw(int x) { switch (x) { case 1: return 5; case 2: return 9; case 7: return 44; case 12: return 3; case 100: return 8; default: try { if (x > 3) throw x; } catch (int y) { return y; } } return 0; }
double fp(double* a, float* b, int n) { double s = 0; for (int i = 0; i < n; i++) { s += a[i] * b[i]; b[i] = __builtin_sqrtf(b[i]) + (float)s; } return s; }
__int128 wide(__int128 a, __int128 b) { return a * b / (b | 1) + (a << 3); }
_Complex double cx(_Complex double a, _Complex double b) { return a * b / (a + b); }
typedef float v8 __attribute__((vector_size(32))); v8 vec(v8 a, v8 b) { return __builtin_shufflevector(a, b, 0, 9, 2, 11, 4, 13, 6, 15) * a + b; }
