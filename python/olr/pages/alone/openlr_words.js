"use strict";
// Names and words of OpenLR in XML: those of DATEX II, versions 2 and 3, and those of OpenLR's own schema.
//
// `REFERENCE_PARTS` says of the elements of a reference what each is: a Map of the elements within it, or the name of a field.

const fieldsOf = (names) => new Map(Object.entries(names));
const LINE_ATTRIBUTES = fieldsOf({
  openlrFunctionalRoadClass: "class",
  openlrFormOfWay: "form",
  openlrBearing: "bearing",
  FRC: "class",
  FOW: "form",
  BEAR: "bearing",
});
const PATH_ATTRIBUTES = fieldsOf({
  openlrLowestFRCToNextLRPoint: "lowest",
  openlrDistanceToNextLRPoint: "distance",
  LFRCNP: "lowest",
  DNP: "distance",
});
const COORDINATES = fieldsOf({ longitude: "longitude", latitude: "latitude", Longitude: "longitude", Latitude: "latitude" });
const OFFSETS = fieldsOf({ openlrPositiveOffset: "positive", openlrNegativeOffset: "negative", PosOff: "positive", NegOff: "negative" });
const LAST_POINT = new Map([
  ["openlrCoordinate", COORDINATES],
  ["openlrCoordinates", COORDINATES],
  ["Coordinates", COORDINATES],
  ["openlrLineAttributes", LINE_ATTRIBUTES],
  ["LineAttributes", LINE_ATTRIBUTES],
]);
const OTHER_POINT = new Map([...LAST_POINT, ["openlrPathAttributes", PATH_ATTRIBUTES], ["PathAttributes", PATH_ATTRIBUTES]]);
const BINARY_ELEMENT = "openlrBinary";
const REFERENCE_PARTS = new Map([
  ["openlrLocationReferencePoint", OTHER_POINT],
  ["LocationReferencePoint", OTHER_POINT],
  ["openlrLastLocationReferencePoint", LAST_POINT],
  ["LastLocationReferencePoint", LAST_POINT],
  ["openlrOffsets", OFFSETS],
  ["Offsets", OFFSETS],
  ["openlrSideOfRoad", "side"],
  ["openlrOrientation", "orientation"],
  ["SideOfRoad", "side"],
  ["Orientation", "orientation"],
  [BINARY_ELEMENT, "binary"],
]);
// What the fields of references are called, in DATEX II and in OpenLR's own schema.
const DATEX_NAMES = {
  class: "openlrFunctionalRoadClass",
  form: "openlrFormOfWay",
  bearing: "openlrBearing",
  lowest: "openlrLowestFRCToNextLRPoint",
  distance: "openlrDistanceToNextLRPoint",
  longitude: "longitude",
  latitude: "latitude",
  positive: "openlrPositiveOffset",
  negative: "openlrNegativeOffset",
  side: "openlrSideOfRoad",
  orientation: "openlrOrientation",
  points: "openlrLocationReferencePoint",
  last: "openlrLastLocationReferencePoint",
};
const OWN_NAMES = {
  class: "FRC",
  form: "FOW",
  bearing: "BEAR",
  lowest: "LFRCNP",
  distance: "DNP",
  longitude: "Longitude",
  latitude: "Latitude",
  positive: "PosOff",
  negative: "NegOff",
  side: "SideOfRoad",
  orientation: "Orientation",
  points: "LocationReferencePoint",
  last: "LastLocationReferencePoint",
};

// The numbers of words, as DATEX II has them, and in capital letters with underscores.
function numbersOfWords(...words) {
  const snakes = words.map((word) => word.replace(/(?=[A-Z])/g, "_").toUpperCase());
  return new Map([words, snakes].flatMap((both) => both.map((word, number) => [word, number])));
}

const CLASS_WORDS = new Map(Array.from({ length: 8 }, (_, number) => [`FRC${number}`, number]));
const FORM_WORDS = numbersOfWords(
  ..."undefined motorway multipleCarriageway singleCarriageway roundabout trafficSquare slipRoad other".split(" "),
);
FORM_WORDS.set("TRAFFICSQUARE", 5).set("SLIPROAD", 6);
const FIELD_WORDS = {
  class: CLASS_WORDS,
  lowest: CLASS_WORDS,
  form: FORM_WORDS,
  side: numbersOfWords("onRoadOrUnknown", "right", "left", "both"),
  orientation: numbersOfWords("noOrientationOrUnknown", "withLineDirection", "againstLineDirection", "both"),
};

// The number of a word of a field, which may have blanks around it: -1 for what is none.
function numberOfWord(field, text) {
  const words = FIELD_WORDS[field];
  return words.get(text) ?? words.get(strip(text ?? "")) ?? -1;
}

const OF_LINE = "line";
const OF_ALONG_LINE = "point-along-line";
const POI_WITH_ACCESS = "PoiWithAccess";
const OTHER_KINDS = new Set(["OtherKind Area", "OtherKind GeoCoordinate", POI_WITH_ACCESS]);
// Kinds of location, and the faults of those that aren't read.
const LOCATION_KINDS = new Map([
  ["linelocationreference", OF_LINE],
  ["pointlocationreference", OF_ALONG_LINE],
  ["pointalongline", OF_ALONG_LINE],
  ["extendedpoint", OF_ALONG_LINE],
  ["poiwithaccesspoint", POI_WITH_ACCESS],
  ["geocoordinate", "OtherKind GeoCoordinate"],
]);
for (const area of ["circle", "rectangle", "grid", "polygon", "closedline"]) {
  for (const more of ["", "locationreference"]) LOCATION_KINDS.set(area + more, "OtherKind Area");
}

// The kind of an element or a type, or the fault of the kind. null where the name says none.
function kindOf(name) {
  const plain = name.slice(name.lastIndexOf(":") + 1).toLowerCase();
  return LOCATION_KINDS.get(plain.startsWith("openlr") ? plain.slice(6) : plain) ?? null;
}

const BINARIES_ELEMENT = "BinaryLocationReferences";
const REFERENCE_STARTS = new Set([
  ...["XMLLocationReference", "LineLocationReference", "PointLocationReference", "AreaLocationReference"],
  BINARIES_ELEMENT,
]);
const OWN_RECORD = "OpenLR";
const OWN_KEY = "LocationID";
const SITUATION = "situationRecord";
const DATEX_ROOTS = new Set(["d2LogicalModel", "messageContainer", "payload", "payloadPublication"]);
const POINT_ELEMENTS = new Set([DATEX_NAMES, OWN_NAMES].flatMap(({ points, last }) => [points, last]));

// Whether an element has references within it, or is a part of one.
function beginsReference(name) {
  return name.startsWith("openlr") || REFERENCE_STARTS.has(name) || POINT_ELEMENTS.has(name);
}
