/** A thread that computes in a recursion, one that sleeps, and the first, which waits for both. */
public class Turns {
    static long mixed(long i, int n) {
        return n == 0 ? i * 31 : mixed(i ^ n, n - 1) + n;
    }

    static long turn(int n) {
        long sum = 0;
        for (long i = 0; sum != 42; i++) {
            sum += mixed(i, n);
        }
        return sum;
    }

    static void sleep() {
        try {
            Thread.sleep(1000000000L);
        } catch (InterruptedException ended) {
            throw new RuntimeException(ended);
        }
    }

    public static void main(String[] words) throws InterruptedException {
        Thread turns = new Thread(() -> System.out.println(turn(6)), "turns");
        Thread sleeps = new Thread(Turns::sleep, "sleeps");
        turns.start();
        sleeps.start();
        turns.join();
        sleeps.join();
    }
}
