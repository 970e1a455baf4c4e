/* What wcwidth.c uses of it. */
typedef int wchar_t;
int wcwidth(wchar_t);
