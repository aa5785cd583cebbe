int every(int n) {
	int *p = malloc(sizeof(int));
	while (n < 2) {
		n = getchar();
	}
	free(NULL);
	help(p);
	free(p);
	free(p);
	return *p;
}
void help(int *q) { int x; *q = x; }
int part(int n) { return n / 0; }
