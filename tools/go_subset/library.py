"""What is known of Go's library: the types of its names, and which construct a name is.

A type is as in known_types.py.
"""

INT, BOOL, STRING = (("basic", name) for name in ("int", "bool", "string"))
RUNE, FLOAT = ("basic", "rune"), ("basic", "float64")
ERROR = ("interface",)
# What functions and variables of the library are, as far as programs often loop over it or take it apart.
LIBRARY = {
    "strings.Split": ("slice", STRING), "strings.Fields": ("slice", STRING), "strings.Join": STRING,
    "strings.Repeat": STRING, "strings.ToUpper": STRING, "strings.ToLower": STRING, "strings.TrimSpace": STRING,
    "strings.Replace": STRING, "strings.ReplaceAll": STRING, "strings.Title": STRING, "strings.Trim": STRING,
    "strings.Contains": BOOL, "strings.HasPrefix": BOOL, "strings.HasSuffix": BOOL, "strings.Index": INT,
    "strings.NewReader": ("pointer", ("library", "strings.Reader")), "strings.Count": INT,
    "strconv.Itoa": STRING, "strconv.Atoi": ("several", [INT, ERROR]), "strconv.Quote": STRING, "strconv.FormatInt": STRING,
    "fmt.Sprintf": STRING, "fmt.Sprint": STRING, "fmt.Sprintln": STRING, "fmt.Errorf": ERROR, "errors.New": ERROR,
    "time.After": ("chan", ("library", "time.Time")), "time.Tick": ("chan", ("library", "time.Time")),
    "time.NewTicker": ("pointer", ("library", "time.Ticker")), "time.NewTimer": ("pointer", ("library", "time.Timer")),
    "time.Now": ("library", "time.Time"), "time.Since": ("library", "time.Duration"),
    "math.Sqrt": FLOAT, "math.Abs": FLOAT, "math.Pow": FLOAT, "math.Floor": FLOAT, "math.Max": FLOAT, "math.Min": FLOAT,
    "rand.Intn": INT, "rand.Int": INT, "rand.Perm": ("slice", INT), "rand.New": ("pointer", ("library", "rand.Rand")),
    "bufio.NewScanner": ("pointer", ("library", "bufio.Scanner")), "bufio.NewReader": ("pointer", ("library", "bufio.Reader")),
    "bufio.NewWriter": ("pointer", ("library", "bufio.Writer")), "list.New": ("pointer", ("library", "list.List")),
    "os.Args": ("slice", STRING), "unicode.IsLetter": BOOL, "unicode.IsDigit": BOOL, "unicode.IsSpace": BOOL,
    "unicode.ToLower": RUNE, "unicode.ToUpper": RUNE, "sync.NewCond": ("pointer", ("library", "sync.Cond")),
    "heap.Pop": ("interface",), "atomic.AddInt32": ("basic", "int32"), "atomic.AddInt64": ("basic", "int64"),
    "atomic.LoadInt32": ("basic", "int32"), "atomic.LoadInt64": ("basic", "int64"), "math.MaxInt64": INT, "math.MinInt64": INT,
    "math.MaxInt32": INT, "math.MaxInt": INT, "math.MinInt": INT, "math.Pi": FLOAT,
}  # fmt: skip
LIBRARY_METHODS = {
    "strings.Builder.String": STRING, "strings.Builder.Len": INT, "bufio.Scanner.Text": STRING, "bufio.Scanner.Scan": BOOL,
    "time.Time.Sub": ("library", "time.Duration"), "sync.Mutex.TryLock": BOOL, "rand.Rand.Intn": INT, "list.List.Len": INT,
    "error.Error": STRING,
}  # fmt: skip
LIBRARY_TYPES = set(
    "time.Duration time.Time time.Month time.Timer time.Ticker sync.Mutex sync.RWMutex sync.WaitGroup sync.Once sync.Cond"
    " sync.Pool sync.Map strings.Builder strings.Reader sort.IntSlice sort.StringSlice sort.Interface heap.Interface list.List"
    " list.Element rand.Rand bufio.Scanner bufio.Reader bufio.Writer bytes.Buffer atomic.Int32 atomic.Int64 atomic.Value"
    " atomic.Bool context.Context big.Int os.File io.Reader io.Writer fmt.Stringer".split()
)
# The construct of a name of the library, by its package or by its full name.
PACKAGES = {
    "sync.Mutex": "sync.Mutex", "sync.RWMutex": "sync.Mutex", "sync.WaitGroup": "sync.WaitGroup", "sync.Once": "sync.Once",
    "atomic": "sync/atomic", "time": "time", "strings": "strings and strconv", "strconv": "strings and strconv",
    "unicode": "strings and strconv", "bytes": "strings and strconv", "utf8": "strings and strconv", "sort": "sort",
    "heap": "container/heap", "list": "container/list", "errors": "error", "os": "input", "bufio": "input", "io": "input",
    "math": "math", "bits": "math", "rand": "math/rand",
}  # fmt: skip


def of_library(package, name):
    """The construct of a name of the library."""
    if package == "fmt":
        return "function value" if name == "Println" else "Printf"
    return PACKAGES.get(f"{package}.{name}") or PACKAGES.get(package, "other packages")
