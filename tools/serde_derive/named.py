"""Types of which the module needs the name alone, as their fields are neither sent nor read."""
from .types import ARRAY, FLOATS, NUMBERS, PHANTOM, Type

# those of the standard library that Rattle's has too, by their modules
STANDARD_TYPES = {
    "cell": "Cell OnceCell RefCell UnsafeCell", "cmp": "Ordering Reverse", "collections": "BinaryHeap Bound LinkedList",
    "convert": "Infallible", "ffi": "CString", "fs": "File", "hash": "DefaultHasher RandomState", "marker": "PhantomData",
    "net": "SocketAddr SocketAddrV4 SocketAddrV6 TcpListener TcpStream UdpSocket",
    "num": "NonZeroI128 NonZeroI16 NonZeroI32 NonZeroI64 NonZeroI8 NonZeroIsize NonZeroU128 NonZeroU16 NonZeroU32 NonZeroU64"
           " NonZeroU8 NonZeroUsize Saturating Wrapping",
    "ops": "Bound Range RangeFrom RangeFull RangeInclusive RangeTo RangeToInclusive", "process": "Child", "result": "Result",
    "sync": "Barrier Condvar Mutex Once OnceLock RwLock",
    "sync::atomic": "AtomicBool AtomicI16 AtomicI32 AtomicI64 AtomicI8 AtomicIsize AtomicU16 AtomicU32 AtomicU64 AtomicU8"
                    " AtomicUsize Ordering",
    "time": "Instant SystemTime",
}
NAMED = {f"std::{module}::{name}" for module, names in STANDARD_TYPES.items() for name in names.split()}
# those that the prelude has
PRELUDE = {"Result": "std::result::Result"}
# those of them with a Default that takes no allocator: whatever their arguments are, and where that of these takes none
DEFAULTED = {PHANTOM, "&str", "&[]", "std::cell::OnceCell", "std::sync::Condvar", "std::sync::OnceLock", "Option", *FLOATS,
             *(name for name in NAMED if "::Atomic" in name)}
DEFAULTED_INSIDE = {"std::cell::Cell", "std::cell::RefCell", "std::sync::Mutex", "std::sync::RwLock", ARRAY, "tuple"}


def has_default(t: Type) -> bool:
    """Whether a type has a Default in Rattle that takes no allocator."""
    if t.name in DEFAULTED_INSIDE:
        return all(map(has_default, t.arguments))
    return t.name in DEFAULTED or t.name in ("bool", "char", "()", "Duration", *NUMBERS)
