"""Which address answers a request.

Starlette's application asks one route after the other whether a path is its own, and hands each part of an answer through three layers: a
twentieth of the server's time for a short one. The addresses here have no parameters.
"""

from collections.abc import Callable, Sequence
from starlette.routing import Route
from starlette.types import ASGIApp, Receive, Scope, Send

from olr.errors import ToolError
from olr.serving.problems import Problem, of_status


class Addresses:
    """An application that has some addresses. All that isn't an answer is a problem document."""

    def __init__(
        self, routes: Sequence[Route], problem_of: Callable[[Problem | ToolError], Problem]
    ) -> None:
        """`problem_of` says by which problem an error is answered."""
        self.paths = [route.path for route in routes]
        self._routes = {route.path: route for route in routes}
        self._problem_of = problem_of

    async def __call__(self, scope: Scope, receive: Receive, send: Send) -> None:
        """Answers a request. A defect of the server is raised too, for its log."""
        try:
            await self._app(scope)(scope, receive, send)
        except (Problem, ToolError) as error:
            await self._problem_of(error).response(scope)(scope, receive, send)
        except Exception:
            await of_status(500).response(scope)(scope, receive, send)
            raise

    def _app(self, scope: Scope) -> ASGIApp:
        """What answers a request. Raises `Problem`."""
        route = self._routes.get(scope["path"])
        if route is None:
            raise of_status(404)
        if route.methods and scope["method"] not in route.methods:
            raise of_status(405, {"Allow": ", ".join(sorted(route.methods))})
        return route.app
