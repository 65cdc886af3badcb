// Times java.util.concurrent's ConcurrentLinkedQueue: `java Queues.java SECONDS` prints a line a run: the queue, the kind of work,
// the nanoseconds a pair, or a value taken, and how long the run was. works.rs says what a thread does in each kind; here each does
// it so many times, and a run ends with its last thread. Runs of the first second warm up, and aren't printed.
import java.util.concurrent.ConcurrentLinkedQueue;
import java.util.concurrent.CountDownLatch;

public class Queues {
    record Pair(long seat, long body) {}

    // Of each thread: b does pairs, u pushes, o pops, r bursts; how many pairs or values there are.
    record Kind(String name, String works, int values) {}

    static final int BURST = 100;
    static final Kind[] KINDS = {
        new Kind("one", "b", 100_000),
        new Kind("four", "bbbb", 80_000),
        new Kind("pair", "uo", 40_000),
        new Kind("two", "uuoo", 40_000),
        new Kind("three", "uuuo", 36_000),
        new Kind("one-three", "uooo", 36_000),
        new Kind("four-burst", "rrrr", 80_000),
    };

    // Pops, with crossbeam's backoff: it spins longer each time, and then yields.
    static Pair popped(ConcurrentLinkedQueue<Pair> queue) {
        for (int step = 0;; step++) {
            Pair found = queue.poll();
            if (found != null) {
                return found;
            }
            for (int k = 0; step <= 6 && k < 1 << step; k++) {
                Thread.onSpinWait();
            }
            if (step > 6) {
                Thread.yield();
            }
        }
    }

    static void does(char work, ConcurrentLinkedQueue<Pair> queue, long count) {
        int size = work == 'r' ? BURST : 1;
        for (long done = 0; done < count; done += size) {
            for (int k = 0; k < size && work != 'o'; k++) {
                queue.offer(new Pair(1, done));
            }
            for (int k = 0; k < size && work != 'u'; k++) {
                popped(queue);
            }
        }
    }

    static long run(Kind kind) throws InterruptedException {
        ConcurrentLinkedQueue<Pair> queue = new ConcurrentLinkedQueue<>();
        CountDownLatch start = new CountDownLatch(1);
        Thread[] threads = new Thread[kind.works.length()];
        for (int k = 0; k < threads.length; k++) {
            char work = kind.works.charAt(k);
            long count = kind.values / kind.works.chars().filter(its -> its == work).count();
            threads[k] = new Thread(() -> {
                try {
                    start.await();
                    does(work, queue, count);
                } catch (InterruptedException stopped) {
                    throw new IllegalStateException(stopped);
                }
            });
            threads[k].start();
        }
        Thread.sleep(10);
        long began = System.nanoTime();
        start.countDown();
        for (Thread thread : threads) {
            thread.join();
        }
        return System.nanoTime() - began;
    }

    public static void main(String[] words) throws InterruptedException {
        long began = System.nanoTime();
        for (double at = 0; at < Double.parseDouble(words[0]); at = (System.nanoTime() - began) / 1e9) {
            for (Kind kind : KINDS) {
                long time = run(kind);
                if (at > 1) {
                    System.out.printf("java ConcurrentLinkedQueue\t%s\t%.2f\t%d%n", kind.name, time / (double) kind.values, time);
                }
            }
        }
    }
}
