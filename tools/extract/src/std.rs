// Types of Rust's standard library that patterns often name, as their documentation declares them.
enum Option<T> { None, Some(T) }
enum Result<T, E> { Ok(T), Err(E) }
enum Ordering { Less, Equal, Greater }
enum Poll<T> { Ready(T), Pending }
enum Bound<T> { Included(T), Excluded(T), Unbounded }
enum ControlFlow<B, C> { Continue(C), Break(B) }
enum Cow<'a, B> { Borrowed(&'a B), Owned(Unseen) }
enum Entry<K, V> { Occupied(Unseen), Vacant(Unseen) }
enum IpAddr { V4(Unseen), V6(Unseen) }
enum SocketAddr { V4(Unseen), V6(Unseen) }
enum SeekFrom { Start(u64), End(i64), Current(i64) }
enum VarError { NotPresent, NotUnicode(Unseen) }
enum FpCategory { Nan, Infinite, Zero, Subnormal, Normal }
enum TryRecvError { Empty, Disconnected }
enum RecvTimeoutError { Timeout, Disconnected }
enum TrySendError<T> { Full(T), Disconnected(T) }
enum TryLockError<T> { Poisoned(Unseen), WouldBlock }
enum Infallible {}
struct Wrapping<T>(T);
struct Reverse<T>(T);
