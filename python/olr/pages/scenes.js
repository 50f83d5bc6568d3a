// Scenes of many references, which have what they share once: paths are steps of latitude and longitude in microdegrees, and the lines of the
// map are those around all of them.
//
//   const { pathOf, lines, sceneOf } = scenesOf({ scenes, lines, tiles });
//
// `sceneOf(index)` is what `pictureOf` draws, `lines` are with their paths, and `pathOf(steps)` is a path as Leaflet draws it.
function scenesOf({ scenes, lines: packed, tiles }) {
  const pathOf = (steps) => {
    const path = [];
    let [lat, lon] = [0, 0];
    for (let at = 0; at < steps.length; at += 2) {
      lat += steps[at];
      lon += steps[at + 1];
      path.push([lat / 1e6, lon / 1e6]);
    }
    return path;
  };
  const lines = packed.map((line) => ({ ...line, path: pathOf(line.path) }));
  const within = (line, [south, west, north, east]) => {
    const lats = line.path.map((spot) => spot[0]);
    const lons = line.path.map((spot) => spot[1]);
    return Math.min(...lats) <= north && Math.max(...lats) >= south && Math.min(...lons) <= east && Math.max(...lons) >= west;
  };
  const MOST_LINES = 4000;
  const sceneOf = (index) => {
    const { paths, box, near, ...scene } = scenes[index];
    const entries = scene.entries.map((entry) => {
      const path = (number) => (number === null ? null : pathOf(paths[number]));
      return { ...entry, route: path(entry.route), outer: path(entry.outer), inner: path(entry.inner) };
    });
    const around = lines.filter((line) => within(line, box)).slice(0, MOST_LINES);
    return { ...scene, entries, lines: around, cut: near - around.length, tiles };
  };
  return { pathOf, lines, sceneOf };
}
