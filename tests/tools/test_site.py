"""The site that `make docs` makes: it has each page, each public name of the package for Python and each name of the
library's header, no link leads nowhere, and nothing of it is loaded from the network."""
import os
import pathlib
import re
import shutil
from html.parser import HTMLParser
from urllib.parse import unquote, urlsplit

import pytest
from support.needs import tool
from support.tools import TOP, Done, output_of, require_debian_module, run_tool

pytestmark = [pytest.mark.long, pytest.mark.seconds(20), pytest.mark.xdist_group("site")]


class Page(HTMLParser):
    """Where a page leads, what it loads, and what can be led to in it."""

    def __init__(self, path: pathlib.Path) -> None:
        super().__init__()
        self.links, self.loads, self.ids = list[str](), list[str](), set[str]()
        self.feed(path.read_text())

    def handle_starttag(self, tag: str, attrs: list[tuple[str, str | None]]) -> None:
        found = {name: value or "" for name, value in attrs}
        self.ids |= {found[name] for name in ("id", "name") if name in found}
        if tag == "a" and "href" in found:
            self.links.append(found["href"])
        self.loads += [found[name] for name in ("src", "href") if name in found and tag != "a"]


@pytest.fixture(scope="module")
def site(top: pathlib.Path, tmp_path_factory: pytest.TempPathFactory) -> pathlib.Path:
    """The site, which is made without a built library, and of which no warning is printed."""
    tool("mandoc")
    for module in ("sphinx", "numpydoc", "myst_parser", "numpy"):
        require_debian_module(module)
    folder = tmp_path_factory.mktemp("site").resolve() / "made"
    env = os.environ | {"TMPDIR": str(folder.parent)}
    assert run_tool([top / "tools" / "site" / "build", folder], top, env=env) == (0, f"{folder}/index.html\n", "")
    assert [path.name for path in folder.parent.iterdir()] == ["made"], "what is left of the making"
    return folder


def test_no_link_leads_nowhere_and_nothing_is_loaded_from_elsewhere(site: pathlib.Path) -> None:
    pages = {path: Page(path) for path in site.rglob("*.html")}
    missing = []
    for path, page in pages.items():
        assert [load for load in page.loads if urlsplit(load).scheme or urlsplit(load).netloc] == [], path
        for parts in map(urlsplit, [*page.links, *page.loads]):
            to = (path.parent / unquote(parts.path)).resolve() if parts.path else path
            is_there = to.is_file() and (not parts.fragment or to not in pages
                                         or unquote(parts.fragment) in pages[to].ids)
            if not (parts.scheme or parts.netloc or is_there):
                missing.append(f"{path.relative_to(site)}: {parts.geturl()}")
    assert missing == [] and sum(len(page.links) for page in pages.values()) > 500


def test_the_first_page_leads_to_each_page(site: pathlib.Path) -> None:
    written = {str(page.relative_to(TOP).with_suffix(".html")) for pattern in ("*.md", "*/*.md", "docs/*/*.md")
               for page in TOP.glob(pattern)}
    assert written - {link.partition("#")[0] for link in Page(site / "index.html").links} == set()


def test_each_name_is_in_the_reference_and_found_by_a_search(site: pathlib.Path) -> None:
    module = (TOP / "python" / "src" / "pfs" / "__init__.py").read_text().partition("__all__ = [")[2].partition("]")[0]
    header = (TOP / "lib" / "pfs.h").read_text()
    names = {"pfs." + name for name in re.findall(r'"(\w+)"', module) if name != "__version__"} \
        | {"c." + name for pattern in (r"[a-z].*\b(pfs_\w+)\(", r"struct (\w+) {", r"#define (PFS_\w+) ")
           for name in re.findall(f"^{pattern}", header, re.MULTILINE)}
    index = (site / "searchindex.js").read_text()
    assert len(names) > 40
    assert names - Page(site / "reference.html").ids - Page(site / "reference_c.html").ids == set()
    assert [name for name in names if name[0] == "c" and f'"{name}"' not in index] == []
    assert ">best_place<" in (site / "docs" / "DEFINITIONS.html").read_text()
    assert ">BlockReader::feed<" in (site / "docs" / "FUNCTIONS.html").read_text()


# A header with each kind of comment, and the lines of its page that aren't empty.
HEADER = """/** @file
 * @brief A library of `n` * 2.
 *
 *     int code = 1;
 */
/** @name Numbers of calls.
 * Of all. @{ */
#define PFS_OK 0 /**< it succeeded */
#define PFS_MOST 5
/** @} */
/** @brief What struct pfs_it has. */
struct pfs_it {
    int a; /**< the first,
            * PFS_ONE or more */
};
/** @brief Calls pfs_none.
 * @param[in] list the list
 * @param[in,out] it the struct,
 *     or NULL
 * @return PFS_OK */
int pfs_call(struct pfs_it *instance, const int *list, size_t list_length,
             struct pfs_it *it) PFS_CHECKED;
/** @brief The last number. */
#define PFS_ONE 1
"""
REFERENCE = r"""C reference
===========
A library of ``n`` \* 2.
.. code-block:: c
    int code = 1;
Numbers of calls
----------------
Of all.
.. c:macro:: PFS_OK
   0: it succeeded
.. c:macro:: PFS_MOST
   5
.. c:struct:: pfs_it
   What :c:struct:`pfs_it` has.
   .. c:member:: int a
      the first, :c:macro:`PFS_ONE` or more
Functions
---------
.. c:function:: int pfs_call(struct pfs_it *instance, const int *list, size_t list_length, struct pfs_it *it)
   Calls :c:func:`pfs_none`.
   :param list: the list
   :param it: the struct, or NULL
   :returns: :c:macro:`PFS_OK`
.. c:macro:: PFS_ONE
   The last number.
"""


def test_a_header_has_its_page(top: pathlib.Path, folder: pathlib.Path) -> None:
    """A comment with other parameters than its function is an error."""
    for name in ("tools/site", "lib"):
        (folder / name).mkdir(parents=True)
    header = shutil.copy(top / "tools" / "site" / "header", folder / "tools" / "site")
    (folder / "lib" / "pfs.h").write_text(HEADER)
    assert re.sub(r"\n\s*\n", "\n", output_of([header], folder)) == REFERENCE
    (folder / "lib" / "pfs.h").write_text(HEADER.replace(" list the", " lists the"))
    call, = re.findall("function:: (int .*)", REFERENCE)
    assert run_tool([header], folder) \
        == Done(1, "", f"site/header: {call}: the comment has the parameters ['lists', 'it']\n")


def test_the_site_replaces_nothing_else(top: pathlib.Path, folder: pathlib.Path) -> None:
    (folder / "kept").write_text("mine\n")
    got = run_tool([top / "tools" / "site" / "build", folder], top)
    assert (got.status, got.stderr) == (1, f"site/build: {folder} holds something else than a site\n")
    assert [path.name for path in folder.iterdir()] == ["kept"]
