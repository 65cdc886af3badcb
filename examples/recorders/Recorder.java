// Records a queue of Java's library from threads, and writes the recording: java Recorder.java [lifo] [CALLS].
import java.util.concurrent.ConcurrentLinkedDeque;

class Recorder {
    static final long START = System.nanoTime() - 1;
    static final ConcurrentLinkedDeque<String> QUEUE = new ConcurrentLinkedDeque<>();

    static void work(String name, int calls, boolean faulty, StringBuilder log) {
        for (int count = 1; count <= calls; count++) {
            String text = name + "-" + count, call = "deq", reply = "done";
            long first = System.nanoTime() - START;
            if (count % 4 == 1 || count % 4 == 2) {
                QUEUE.addLast(text);
                call = "enq " + text;
            } else {
                String value = faulty ? QUEUE.pollLast() : QUEUE.pollFirst();
                reply = value == null ? "empty" : "value " + value;
            }
            long last = System.nanoTime() - START;
            log.append(String.format("%s %s from %d to %d reply %s\n", name, call, first, last, reply));
        }
    }

    public static void main(String[] words) throws InterruptedException {
        boolean faulty = words.length > 0 && words[0].equals("lifo");
        int calls = words.length > (faulty ? 1 : 0) ? Integer.parseInt(words[words.length - 1]) : 8;
        StringBuilder[] logs = new StringBuilder[4];
        Thread[] threads = new Thread[4];
        for (int thread = 0; thread < 4; thread++) {
            String name = "t" + (thread + 1);
            StringBuilder log = logs[thread] = new StringBuilder();
            threads[thread] = new Thread(() -> work(name, calls, faulty, log));
        }
        for (Thread it : threads) it.start();
        for (Thread it : threads) it.join();
        System.out.println("msq record 1\noperations " + 4 * calls);
        for (StringBuilder log : logs) System.out.print(log);
    }
}
