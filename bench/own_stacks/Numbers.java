/* A program that computes in Java for three seconds. */
public class Numbers {
    static long sum(int depth) {
        return depth == 0 ? 1 : sum(depth - 1) + Integer.toString(depth).length();
    }

    public static void main(String[] arguments) {
        long end = System.currentTimeMillis() + 3000, all = 0;
        while (System.currentTimeMillis() < end) all += sum(50);
        System.out.println(all > 0);
    }
}
