"""The list of all tests but those of `rt ci`: the parts of tools/test, what each runs, and what is built for it.

The command of a part finds the program by MODINFO, the WebAssembly module by MODINFO_WASM, the folder of the
libraries by MODINFO_LIB_DIR, and the program of the test cases by TEST_REPLAY, all in the environment. It ends with
status 69 where what it needs can't be installed.
"""

from dataclasses import dataclass

UNAVAILABLE = 69


@dataclass(frozen=True)
class Part:
    """A command of bash, which runs in the folder of the repository, and what has to be built for it."""

    name: str
    command: str
    builds: tuple[str, ...] = ()


@dataclass(frozen=True)
class Programs:
    """Where the programs are that the parts test, the command that builds each, and what it needs of the others."""

    places: dict[str, str]
    builds: dict[str, str]
    needs: dict[str, str]

    def build(self, name: str) -> Part:
        return Part(f"build_{name}", self.builds[name], (self.needs[name],) if name in self.needs else ())


def after(setup: str, command: str) -> str:
    """The command once parts of tools/setup are installed. One setup runs at a time, as apt-get does."""
    return f"flock build/test tools/setup {setup} && {command}"


def with_or_without(setup: str, command: str) -> str:
    """The command, which passes over what it can't test, also where its packages can't be installed."""
    return f"{{ flock build/test tools/setup {setup} || [[ $? -eq {UNAVAILABLE} ]]; }} && {command}"


UNCHECKED = Programs(
    {
        "MODINFO": "build/unchecked/modinfo",
        "MODINFO_WASM": "build/unchecked/modinfo.wasm",
        "MODINFO_LIB_DIR": "build/unchecked",
        "TEST_REPLAY": "build/unchecked/test_replay",
    },
    {
        "modinfo": "exec tools/build_unchecked modinfo",
        "libmodinfo": "exec tools/build_unchecked libmodinfo",
        "test_replay": "exec tools/build_unchecked libmodinfo",
        "wasm": after("wasm", "exec packaging/wasm/build --unchecked"),
    },
    # The program of the test cases is linked from the object of the library.
    {"test_replay": "libmodinfo", "wasm": "libmodinfo"},
)
PROVED = Programs(
    {
        "MODINFO": "build/modinfo",
        "MODINFO_WASM": "build/modinfo.wasm",
        "MODINFO_LIB_DIR": "build",
        "TEST_REPLAY": "build/test_replay",
    },
    {
        "modinfo": "exec ./modinfo --prove",
        "libmodinfo": "exec tools/build_library",
        "wasm": after("wasm", "exec packaging/wasm/build"),
        "test_replay": "[[ -x $TEST_REPLAY ]] || "
        "{ (cd crates/test_replay && rt run) && cp crates/test_replay/out/test_replay build; }",
    },
    {"wasm": "libmodinfo"},
)


def pytest(words: str) -> str:
    """Tests in Python, by Debian's pytest."""
    return after("python", f"exec /usr/bin/python3 -B -m pytest -q -p no:cacheprovider -r s {words}")


def node(words: str) -> str:
    """Tests of the package for node, by paths in its folder."""
    return after("node", f"cd bindings/node && exec node --test {words}")


def node_18(command: str) -> str:
    """The command with Debian's node 18 as `node`."""
    return after("node18", f"PATH=$PWD/build/node18:$PATH && {command}")


BROWSER = node("tests/browser/*.test.mjs")
HAS_BROWSER = f"{{ command -v chromium && command -v chromedriver || exit {UNAVAILABLE}; }}"

# Parts that take long come first, of those that need no build as of the others.
QUICK = [
    Part("rust_lint", after("rust", "exec bindings/rust/run_tests lint")),
    Part("node", node("tests/*.test.mjs"), ("modinfo", "wasm")),
    Part("python", after("python", "exec bindings/python/run_tests"), ("libmodinfo",)),
    Part("formats", after("node", pytest("bindings/tests/test_formats.py")), ("modinfo",)),
    # Not beside rust_lint, whose folder cargo locks.
    Part("rust", after("rust", "exec bindings/rust/run_tests test"), ("libmodinfo",)),
    Part("texts", node("tests/differential/rows.mjs"), ("modinfo",)),
    Part(
        "replay",
        'set -o pipefail; cd crates/test_replay/data && "$TEST_REPLAY" | diff ../stdout -',
        ("test_replay",),
    ),
    Part("examples", 'exec examples/run "$MODINFO"', ("modinfo",)),
    Part("files", "tools/copy_examples --check && tools/generate_formats --check && tools/set_version --check"),
    Part("scripts", pytest("tools/tests -m 'not slow'")),
    Part("wasm", "exec packaging/wasm/test --files 300 node", ("libmodinfo", "wasm")),
    Part("header", pytest("packaging/tests/test_header.py")),
    Part("manual", pytest("packaging/tests/test_manual.py"), ("modinfo",)),
    Part("commands", pytest("packaging/tests/test_commands.py packaging/tests/test_program.py"), ("modinfo",)),
]
UNCHECKED_PARTS = [Part("browser", f"{HAS_BROWSER} && {BROWSER}", ("modinfo", "wasm")), *QUICK]
# Other parts take long, or test what is installed and packed, which is the proved program alone.
PROVED_PARTS = [
    Part("fail_allocations", "exec crates/test_replay/fail_allocations", ("test_replay",)),
    Part("parsers", node("tests/differential/{gaps,machine,mutations,nesting}.mjs"), ("modinfo",)),
    Part("browser", after("browser", BROWSER), ("modinfo", "wasm")),
    Part("engines", with_or_without("node18", "exec packaging/wasm/test"), ("libmodinfo", "wasm")),
    Part("node_18", node_18(node("tests/*.test.mjs")), ("modinfo", "wasm")),
    *QUICK,
    Part("fresh_clone", pytest("tools/tests -m slow")),
    Part("library", pytest("packaging/tests/test_library.py"), ("libmodinfo",)),
    *(
        Part(
            name,
            with_or_without("package", pytest(f"packaging/tests/test_{name}.py")),
            ("modinfo", "libmodinfo"),
        )
        for name in ("install", "package")
    ),
    Part(
        "aarch64",
        after("aarch64", "tools/build_library --target aarch64 && exec packaging/aarch64/test"),
        ("modinfo", "libmodinfo"),
    ),
    Part("embed", "exec examples/embed", ("libmodinfo",)),
    Part(
        "languages",
        with_or_without("languages", pytest("packaging/tests/test_languages.py")),
        ("libmodinfo",),
    ),
    Part("bench", "cd crates/bench_program && rt try -- $(< args) < stdin | diff stdout -"),
    Part("pages", pytest("bindings/tests/test_pages.py"), ("modinfo", "libmodinfo", "wasm")),
    Part("cluster", after("cluster", "exec examples/cluster/test"), ("modinfo", "libmodinfo")),
]
