/** Prints what Java makes of pairs of words: a, b, a + b, a - b, a * b, a / b, a % b, -a. Where b is 0, a / b and a % b are left at 0. */
class Words {
    public static void main(String[] arguments) {
        int[] words = new int[18];
        int[] edges = {0, 1, -1, 2, -2, 7, -7, 10, 46341, -65536,
            Integer.MAX_VALUE, Integer.MAX_VALUE - 1, Integer.MIN_VALUE, Integer.MIN_VALUE + 1};
        System.arraycopy(edges, 0, words, 0, edges.length);
        int mixed = 1;
        for (int i = edges.length; i < words.length; i++) {
            mixed = mixed * 1103515245 + 12345;
            words[i] = mixed;
        }
        for (int a : words) {
            for (int b : words) {
                int quotient = b == 0 ? 0 : a / b;
                int remainder = b == 0 ? 0 : a % b;
                System.out.println("    [" + a + ", " + b + ", " + (a + b) + ", " + (a - b) + ", " + (a * b) + ", "
                    + quotient + ", " + remainder + ", " + (-a) + "],");
            }
        }
    }
}
