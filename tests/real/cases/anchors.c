/* Small tables, of which the last stands more than 2,047 bytes from the first: gcc reaches it from a symbol of its own at 4,096,
   which lies past the end of their section. */
static const long squares[100] = { 0, 1, 4, 9, 16, 25, 36, 49, 64, 81, [99] = 9801 };
static const long cubes[100] = { 0, 1, 8, 27, 64, 125, 216, 343, 512, 729, [99] = 970299 };
static const long triangles[100] = { 0, 1, 3, 6, 10, 15, 21, 28, 36, 45, [99] = 4950 };
static const unsigned char order[19] = { 16, 17, 18, 0, 8, 7, 9, 6, 10, 5, 11, 4, 12, 3, 13, 2, 14, 1, 15 };

long chosen(long at)
{
    return squares[at] + cubes[at] + triangles[at] + order[at];
}

int main(void)
{
    return (int)chosen(7);
}
