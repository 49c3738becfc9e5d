// Prints Caffeine's hits at each capacity: Hits CAPACITY... The keys of a trace come from standard input, in eight little-endian bytes each.
import com.github.benmanes.caffeine.cache.Caffeine;
import java.nio.ByteBuffer;
import java.nio.ByteOrder;

class Hits {
    public static void main(String[] words) throws Exception {
        var keys = ByteBuffer.wrap(System.in.readAllBytes()).order(ByteOrder.LITTLE_ENDIAN).asLongBuffer();
        for (var word : words) {
            var cache = Caffeine.newBuilder().maximumSize(Long.parseLong(word)).executor(Runnable::run).<Long, Long>build();
            long hits = 0;
            for (int at = 0; at < keys.limit(); at++) {
                Long key = keys.get(at);
                if (cache.getIfPresent(key) != null) hits++;
                else cache.put(key, key);
            }
            System.out.println(hits);
        }
    }
}
