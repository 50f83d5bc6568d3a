"""A map that can be asked: `olr.Map`."""

from collections.abc import Callable, Iterable, Iterator, Mapping, Sequence
from functools import partial
from pathlib import Path
from typing import TYPE_CHECKING, Any, Literal, NoReturn, cast, overload

from olr.asking.files import MapFiles
from olr.asking.patience import PATIENCE, require_patience
from olr.asking.program import SHIPPED, PathLike
from olr.client.answering import Answering
from olr.client.source import FilesSource
from olr.extras import needed_by
from olr.model.answers import AnswerOrFault, Candidates, Page, Places, Why
from olr.model.fault import Fault
from olr.model.legs_and_lines import Legs, Lines
from olr.model.map_folder import store_of
from olr.model.sources import Sources
from olr.model.profiles import (
    DEFAULT_PROFILE,
    PROFILE,
    as_arguments,
    others_than,
    tolerances_of,
    with_tolerances,
)
from olr.model.questions import (
    Setting,
    What,
    all_tolerances,
    all_words,
    cursor_of,
    many,
    record_text,
    with_empty_texts,
    words_of,
)

if TYPE_CHECKING:
    from olr.client.store_source import StoreSource
    from olr.geometry.network import Network


class Map(Answering):
    """A map of nodes, lines and bans, with tolerances, that answers questions about references: `olr.Map("folder")`, or
    `olr.Map("country.gpkg")` for a store of `olr-tools regions`, a map of any size, of which it reads what a reference needs.

    It owns a process `olr answer`, started when it is first asked, which answers all questions with all numbers. It ends with the `with`
    statement, by `close`, or with Python itself. Several threads may ask one map, of up to so many `processes` at once. Other processes, such
    as the workers of Dask, open it by its path: it can't be pickled, which is a `TypeError`. All answers, and `network`, are of one version of
    its files.

    A question raises `Fault` where there is no answer, `MapRefused` where `olr` doesn't accept the files or they have changed since
    they were read, `ProgramNotFound` where the program isn't built, `ProgramEnded` where its process was killed, and `TimedOut` where
    it answered nothing for `patience` seconds: the next question starts another one. A number that isn't one raises `TypeError`, and
    one that is out of its range `Fault`, before the program is asked. An option of another type raises `TypeError` too, and a word that it
    doesn't have `ValueError`.

    >>> import olr
    >>> with olr.Map("examples") as town:
    ...     best = town.match("CwVF/yN2yRpnBAFUAAgbpwYBAf9kK0Fa").matchings[0]
    ...
    >>> best
    <Matching: total 12, 4 lines, 561.5 m, cursor 12:1.1.1>
    >>> olr.Map("examples", radius=50)
    Map('examples/nodes.csv', 'examples/lines.csv', 'examples/bans.csv', radius=50)
    """

    @with_tolerances
    def __init__(
        self,
        nodes: PathLike,
        lines: PathLike | None = None,
        bans: PathLike | None = None,
        *,
        program: PathLike | None = None,
        patience: float | None = PATIENCE,
        processes: int = 1,
        confidence: PathLike | Literal[False] | None = None,
        profile: str = DEFAULT_PROFILE,
        **tolerances: int,
    ) -> None:
        """A map of these files; or, of one path alone, that of a folder with its `nodes.csv`, its `lines.csv` and, if it is there, its
        `bans.csv`, or of a store. The tolerances are those of the program's options: those that aren't given are those of the
        profile, which is "feed" as in all of `olr-tools`, or "program" for the program's own defaults. `find_program` says which
        program is run, and `patience` for how many seconds it may answer nothing; with None it is waited for without end. Places in the likely
        order have probabilities by `confidence`, the file of one or an `olr.Confidence`: by default the one that comes with the package, and
        with False none. Raises `ValueError` for what is no profile, and for no number of processes.
        """
        self._ask_with(profile, tolerances)
        self._program = None if program is None else Path(program)
        self._patience = require_patience(patience)
        if processes < 1:
            raise ValueError(f"processes is how many there may be, from 1 on, not {processes!r}")
        self._confidence = SHIPPED if confidence is None else confidence or None
        self._given = (nodes, lines, bans)
        made = partial(
            FilesSource,
            program=self._program,
            patience=self._patience,
            most=processes,
            confidence=self._confidence,
        )
        store = None if lines is not None else store_of(Path(nodes))
        files = MapFiles.of_folder(Path(nodes)) if lines is None else MapFiles(nodes, lines, bans)
        self._source: "FilesSource | StoreSource" = (
            made(files) if store is None else _store_source(store, made)
        )
        self._network: "Network | None" = None
        self._closed = False

    @classmethod
    @with_tolerances
    def of_folder(
        cls, folder: PathLike, *, profile: str = DEFAULT_PROFILE, **options: Any
    ) -> "Map":
        """The map of a folder, or a store: as `Map` of its path alone, with the same options.

        >>> import olr
        >>> with olr.Map.of_folder("examples") as town:
        ...     town.places("CwVF/yN2yRpnBAFUAAgbpwYBAf9kK0Fa").verdict
        ...
        'unique'
        """
        return cls(folder, profile=profile, **options)

    @with_tolerances
    def asking(self, *, profile: str = DEFAULT_PROFILE, **tolerances: int) -> "Map":
        """This map, asked with other tolerances: those that aren't given are those of the profile. It is asked by the same processes, so it
        isn't read again; closing one closes both.

        >>> import olr
        >>> with olr.Map("examples") as town:
        ...     [len(one.match("CwVGnSN2zhtnBgEB/2IjAQ==").matchings) for one in (town, town.asking(profile="program"))]
        ...
        [1, 0]
        """
        other = object.__new__(type(self))
        other.__dict__.update(self.__dict__)
        other._ask_with(profile, tolerances)
        return other

    def _with_confidence(self, confidence: PathLike) -> "Map":
        """A map of the same files that is asked as this one, but by another confidence, and by a process of its own."""
        nodes, lines, bans = self._given
        given: dict[str, Any] = {"program": self._program, "patience": self._patience}
        return Map(nodes, lines, bans, confidence=confidence, **given, **self._asked_with)

    def _ask_with(self, profile: str, tolerances: Mapping[str, int]) -> None:
        """Sets the tolerances."""
        self._tolerances = all_tolerances(tolerances, tolerances_of(profile))
        self._words = all_words(self._tolerances)
        given = {name: int(value) for name, value in self._tolerances.items()}
        others = others_than(profile, given)
        self._asked_with: dict[str, Any] = {PROFILE: profile, **as_arguments(others)}

    def __repr__(self) -> str:
        words = [repr(str(file)) for file in self.files.paths()]
        for name, value in self._asked_with.items():
            if (name, value) != (PROFILE, DEFAULT_PROFILE):
                words.append(f"{name}={value!r}")
        text = f"Map({', '.join(words)})"
        return f"<closed {text}>" if self._closed else text

    def __reduce__(self) -> NoReturn:
        raise TypeError(
            "a Map can't be pickled, since it owns processes of olr: open it in each process that asks it, by olr.Map(path)"
        )

    def __enter__(self) -> "Map":
        return self

    def __exit__(self, *_: object) -> None:
        self.close()

    def close(self) -> None:
        """Ends the processes, and lets go of the scratch files of a store's map. What is asked of the map later raises `ToolError`;
        a second call does nothing.

        >>> import olr
        >>> town = olr.Map("examples")
        >>> town.close()
        >>> town.match("CwVF/yN2yRpnBAFUAAgbpwYBAf9kK0Fa")
        Traceback (most recent call last):
        olr.errors.ToolError: this map is closed: make another one
        """
        self._closed = True
        self._source.close()

    @property
    def tolerances(self) -> Mapping[str, int]:
        """The tolerances by their names: those that weren't given are those of the profile. Each is in the unit of its option, which
        `help(olr.Map)` has.

        >>> import olr
        >>> olr.Map("examples").tolerances["radius"]
        75
        """
        return dict(self._tolerances)

    @property
    def asked_with(self) -> Mapping[str, Any]:
        """The profile, and the tolerances that aren't as it has them, by their names as arguments: a map of these asks as this one does.

        >>> import olr
        >>> olr.Map("examples", radius=60, lowest=4).asked_with
        {'profile': 'feed', 'radius': 60}
        """
        return dict(self._asked_with)

    @property
    def program(self) -> Path | None:
        """The program that was named for this map; None for the one that is found.

        >>> import olr
        >>> olr.Map("examples").program is None
        True
        """
        return self._program

    @property
    def confidence(self) -> Path | None:
        """The file of the confidence by which places have probabilities; None for none.

        >>> import olr
        >>> olr.Map("examples").confidence.name
        'shipped.json'
        """
        return None if self._confidence is None else Path(self._confidence)

    @property
    def files(self) -> MapFiles:
        """The files of this map: what is read of them within `files.reading()` is of the version that its answers are of.

        >>> import olr
        >>> [path.name for path in olr.Map("examples").files.paths()]
        ['nodes.csv', 'lines.csv', 'bans.csv']
        """
        return self._source.files

    def network(self) -> "Network":
        """The nodes and lines of this map: of the same version of its files. They are read once, and those of a store
        when they are asked for. Raises `MapRefused` if the files have changed since the map was first asked, and `ToolError` if they
        can't be read.

        >>> import olr
        >>> with olr.Map("examples") as town:
        ...     town.network()
        ...
        <Network of examples: 20 nodes, 41 lines>
        """
        if self._network is None:
            self._network = self._source.network()
        return self._network

    def sources(self) -> Sources:
        """Where the lines of this map came from: the `ids.csv` of its folder, which is read once; none if there is no such file. Raises
        `ToolError` if it can't be read.

        >>> import olr
        >>> print(olr.Map("examples").sources().get(104))
        None
        """
        return self._source.sources()

    def match(
        self,
        ref: str,
        *,
        page: int = 10,
        after: str | None = None,
        detail: bool = False,
        shape: bool = False,
    ) -> Page:
        """The first matchings of a reference, best first, or the first ones behind that of a cursor, such as the `next` of a page.
        They are `page` at most, from 1 to 1000. With `detail` each says what speaks for and against it: its likely cost, whether it turns
        back, the parts of its penalties, and what the reference tells; with `shape` where on the earth it lies.

        Raises `Fault` for what is no cursor, and for one that no matching has with this reference, map and tolerances. Totals are in
        penalty points, lengths and positions in decimetres. Raises as `Map` says.

        >>> import olr
        >>> with olr.Map("examples") as town:
        ...     page = town.match("CwVF+yN2yhpnBAFdAAsaFg==", page=3)
        ...     page, town.match("CwVF+yN2yhpnBAFdAAsaFg==", after=page.next)
        ...
        (<Page: 3 matchings, total 12 to 31, more behind 31:1.2>, <Page: 3 matchings, total 35 to 89>)
        >>> with olr.Map("examples") as town:
        ...     best = town.match("CwVF+yN2yhpnBAFdAAsaFg==", shape=True).matchings[0]
        ...
        >>> best.shape.outer[0]
        Spot(lon=7415720, lat=49871269)
        """
        settings = {"page": page, "detail": detail, "shape": shape}
        return cast(Page, self._answer("match", ref, settings, after))

    def pages(self, ref: str, *, page: int = 10, after: str | None = None) -> Iterator[Page]:
        """All pages of the matchings of a reference, from the first on or from a cursor on, of `page` matchings each: see `match`. If
        nothing fits there is one page, without matchings. A page is found when it is asked for. Raises as `match`, at once for a number
        that is out of its range.

        >>> import olr
        >>> with olr.Map("examples") as town:
        ...     [len(page.matchings) for page in town.pages("CwVF+yN2yhpnBAFdAAsaFg==", page=3)]
        ...
        [3, 3]
        """
        record_text(ref)
        words_of("match", {"page": page})
        return self._pages(ref, page, None if after is None else cursor_of(after))

    def matches(
        self, refs: Iterable[str | None], *, page: int = 10, shape: bool = False
    ) -> Iterator[Page | Fault]:
        """The first pages of many references, in their order: see `match` and `answers`. Raises as `answers`.

        >>> import olr
        >>> with olr.Map("examples") as town:
        ...     for answer in town.matches(["CwVF/yN2yRpnBAFUAAgbpwYBAf9kK0Fa", "CwVGnSN2zhvHCgDX"]):
        ...         print(answer.text if isinstance(answer, olr.Fault) else answer)
        ...
        <Page: 1 matching, total 12>
        BadLength 12
        """
        texts = many("matches takes many references", refs, "ask match about one")
        return self.answers("match", texts, page=page, shape=shape)

    def places(
        self,
        ref: str,
        *,
        apart: int = 750,
        within: int = 30,
        look: int = 1000,
        most: int = 10,
        order: Literal["total", "likely"] = "total",
        detail: bool = False,
        shape: bool = False,
    ) -> Places:
        """Whether a reference fits one place, or several. `apart` is in decimetres, from 0 to 1,000,000; `within` in penalty points,
        from 0 to 14,620; `look` in matchings, from 1 to 1,000,000; `most` in places, from 1 to 100. The places are in the order of their
        totals, or with "likely" first those that the sender most likely meant, and with how probable each is, in millionths; `detail` and
        `shape` are as in `match`. Raises as `Map` says.

        >>> import olr
        >>> with olr.Map("examples/nodes.csv", "examples/lines.csv") as town:
        ...     town.places("CwVGnSN2zhvHCgDX/tIzAw==")
        ...
        <Places: ambiguous, 2 places, total 66, margin 7>
        >>> with olr.Map("examples/nodes.csv", "examples/lines.csv") as town:
        ...     found = town.places("CwVGnSN2zhvHCgDX/tIzAw==", order="likely", detail=True)
        ...
        >>> [(place.rank, place.cost / 30, place.probability > 500_000) for place in found]
        [(2, 28.6, True), (1, 51.8, False)]
        """
        settings = {"apart": apart, "within": within, "look": look, "most": most}
        options = {"order": order, "detail": detail, "shape": shape}
        return cast(Places, self._answer("places", ref, settings | options))

    def why(self, ref: str, *, nearest: int = 8, shape: bool = False) -> Why:
        """Why a reference has no matching. `nearest` is how many lines are told near each point, from 0 to 64; with `shape` also where
        each of them is nearest. A remedy's value is in the unit of its option. Raises as `Map` says.

        >>> import olr
        >>> with olr.Map("examples") as town:
        ...     town.why("CwVGnSN2zhunAwEB/2IrAQ==")
        ...
        <Why: leg 1, try radius 211, slack 1323, percent 59>
        """
        return cast(Why, self._answer("why", ref, {"nearest": nearest, "shape": shape}))

    def candidates(self, ref: str, *, detail: bool = False, shape: bool = False) -> Candidates:
        """The candidates of each point of a reference. Positions are in decimetres, penalties in points; with `detail` each has the parts of
        its penalty, and with `shape` where on the earth it is. Raises as `Map` says.

        >>> import olr
        >>> with olr.Map("examples") as town:
        ...     town.candidates("CwVF/yN2yRpnBAFUAAgbpwYBAf9kK0Fa").points[0]
        ...
        (Candidate(at=13, line=104, penalty=3),)
        """
        return cast(Candidates, self._answer("candidates", ref, {"detail": detail, "shape": shape}))

    def legs(self, ref: str, *, at: str | None = None, near: int = 1) -> Legs:
        """The legs of a matching, the first one or that of a cursor. Of each it says whether another path of other roads is as short, or
        longer by 1 m or by `near` thousandths at most, from 0 to 100; and whether worse roads are shorter. Lengths are in decimetres. Raises
        as `match`.

        >>> import olr
        >>> with olr.Map("examples") as town:
        ...     town.legs("CwVF/yN2yRpnBAFUAAgbpwYBAf9kK0Fa")
        ...
        <Legs: 2 legs of 12:1.1.1, 246.4 m, 401.7 m>
        """
        return self._legs(ref, at, near)

    def lines(self, box: Sequence[int], *, most: int = 20_000, shape: bool = False) -> Lines:
        """The lines of the map in a box, by their ids: `most` of them, from 1 to 200,000. The box is its west, south, east and north edge, in
        microdegrees; whatever touches the box of a line counts. With `shape` each has its points. Raises `Fault` for a box that isn't one, and
        as `Map` says.

        >>> import olr
        >>> with olr.Map("examples") as town:
        ...     town.lines((7415000, 49871000, 7416000, 49872000))
        ...
        <Lines: 9 lines>
        """
        return self._lines(box, most, shape)

    @overload
    def answers(
        self,
        what: Literal["match"],
        refs: Iterable[str | None],
        *,
        page: int = ...,
        detail: bool = ...,
        shape: bool = ...,
    ) -> Iterator[Page | Fault]:
        ...

    @overload
    def answers(
        self,
        what: Literal["places"],
        refs: Iterable[str | None],
        *,
        apart: int = ...,
        within: int = ...,
        look: int = ...,
        most: int = ...,
        order: Literal["total", "likely"] = ...,
        detail: bool = ...,
        shape: bool = ...,
    ) -> Iterator[Places | Fault]:
        ...

    @overload
    def answers(
        self,
        what: Literal["why"],
        refs: Iterable[str | None],
        *,
        nearest: int = ...,
        shape: bool = ...,
    ) -> Iterator[Why | Fault]:
        ...

    @overload
    def answers(
        self,
        what: Literal["candidates"],
        refs: Iterable[str | None],
        *,
        detail: bool = ...,
        shape: bool = ...,
    ) -> Iterator[Candidates | Fault]:
        ...

    @overload
    def answers(
        self, what: What, refs: Iterable[str | None], **settings: Setting
    ) -> Iterator[AnswerOrFault]:
        ...

    def answers(self, what: What, refs: Iterable[str | None], **settings: Any) -> Iterator[Any]:
        """The answers to one question about many references, in their order: what the method of that question gives, and where it
        would raise `Fault`, that fault in place of an answer. None and NaN, as in a column of a table, have the fault `Empty`. The
        numbers and options are those of that method. Raises `ValueError` for another question, `TypeError` for what the question doesn't
        have, for one text or a table in place of many, and for what is no text, and `Fault` for a number out of its range. `olr.locate`
        takes a table as it is.

        The process is kept busy: up to 256 references are taken from `refs` before the first answer is given, fewer where answers may
        be long. Other questions may be asked meanwhile. If the generator isn't gone through, the answers to what was handed over are
        passed over. Where an answer takes too long, what was handed over is asked again, one by one, so `TimedOut` has the reference
        at which that was, and its number.

        >>> import olr
        >>> keys, texts = zip(*olr.read_messages("examples/messages.tsv"))
        >>> with olr.Map("examples") as town:
        ...     for key, answer in zip(keys, town.answers("places", texts, within=50)):
        ...         print(key, answer.text if isinstance(answer, olr.Fault) else answer.verdict)
        ...
        m1 unique
        m2 unique
        m3 unique
        m4 unique
        m5 BadLength 12
        """
        asked = self._asked(what, settings)
        many("answers takes many references", refs, f"ask {what} about one")
        return self._answers(asked, with_empty_texts(refs))

    def raw_answer(
        self, what: What, ref: str, *, after: str | None = None, **settings: Setting
    ) -> bytes:
        """The JSON of an answer as the program has it, for those who pass it on: what the method of that question gives, without the
        objects. `after` is for `match`. Raises as that method.

        >>> import olr
        >>> with olr.Map("examples") as town:
        ...     town.raw_answer("match", "CwVGnSN2zhunAwEB/2IrAQ==")
        ...
        b'{"matchings":[],"next":null}'
        """
        more = [] if after is None else ["--after", cursor_of(after)]
        return self._line(self._asked(what, settings), ref, *more).answer

    def _pages(self, ref: str, page: int, after: str | None) -> Iterator[Page]:
        """The pages from a cursor on."""
        found = self.match(ref, page=page, after=after)
        yield found
        while found.next is not None:
            found = self.match(ref, page=page, after=found.next)
            yield found


def _store_source(store: Path, made: Callable[[MapFiles], FilesSource]) -> "StoreSource":
    """That of a store. Raises `ToolError` for what is none."""
    with needed_by("olr.Map of a store", "scale"):
        from olr.client.store_source import StoreSource
    return StoreSource(store, made)
