"use strict";
// References whose fields are numbers in physical units, as XML has them, and their binary form. Numbers are exact: each is a BigInt of a small
// unit, of which 10 to the 12th are 1.
//
//   writtenReference({ kind, points, positive, negative, side, orientation }, names)   the base64. Throws `BadReference` where there is none:
//                                                                                     its message is the fault, with the names of fields
//
// A point has { longitude, latitude, class, form, bearing, lowest, distance }: numbers of words, or texts, or undefined for what isn't there.

class BadReference extends Error {}

const badElement = (name) => new BadReference(`BadElement ${name}`);
const UNIT_DIGITS = 12;
const UNITS = 10n ** 12n;
const MOST_POINTS = 32;
const MOST_UNIT_DIGITS = 40;
const DECIMAL = /^([+-]?)(?:([0-9]+)\.?([0-9]*)|\.([0-9]+))(?:[eE]([+-]?[0-9]{1,9}))?$/;
const CIRCLE_UNITS = 360n * UNITS;
const SECTOR_UNITS = (1125n * UNITS) / 100n;
const INTERVAL_UNITS = (586n * UNITS) / 10n;
const LONGEST_LEG = 15_000n * UNITS;
const MICRODEGREE = UNITS / 1_000_000n;
const [MOST_LON, MOST_LAT] = [180_000_000n, 80_000_000n];
const STEP_MICRODEGREES = 10n;
const CIRCLE_STEPS = 1n << 24n;
const HALF_NUMBERS = CIRCLE_STEPS / 2n;

const sizeOf = (value) => (value < 0n ? -value : value);
const floorDivided = (value, by) => value / by - (value % by !== 0n && value < 0n !== by < 0n ? 1n : 0n);

// A number in units; null for what is none, or is beyond any field. A text is a number as XML has it, and blanks at its ends.
function unitsOf(text) {
  const found = text === undefined ? null : DECIMAL.exec(strip(text));
  if (!found) return null;
  const [, sign, whole = "", part = found[4] ?? "", , power = "0"] = found;
  const digits = (whole + part).replace(/^0+/, "");
  if (!digits) return 0n;
  const size = Number(power) - part.length + UNIT_DIGITS;
  if (digits.length + size > MOST_UNIT_DIGITS) return null;
  if (size >= 0) return (sign === "-" ? -1n : 1n) * BigInt(digits) * 10n ** BigInt(size);
  const kept = digits.length + size > 0 ? digits.slice(0, size) : "0";
  const isExact = !/[1-9]/.test(digits.slice(Math.max(0, digits.length + size)));
  const units = BigInt(kept);
  if (sign !== "-") return units;
  const floor = -units - (isExact ? 0n : 1n);
  return String(-floor).length > MOST_UNIT_DIGITS ? null : floor;
}

// A coordinate of the first point by its number, in microdegrees.
function absoluteCoordinate(number) {
  const sign = number > 0n ? 1n : number < 0n ? -1n : 0n;
  return ((2n * number - sign) * 90_000_000n + (1n << 22n)) >> 23n;
}

// The number of 24 bits of a coordinate.
function absoluteNumber(value, limit) {
  const steps = sizeOf(value) * CIRCLE_STEPS;
  if (4n * steps < CIRCLE_UNITS) return 0n;
  const most = steps / CIRCLE_UNITS + 1n;
  const sign = value > 0n ? 1n : -1n;
  const number = value > 0n ? (most < HALF_NUMBERS ? most : HALF_NUMBERS - 1n) : most <= HALF_NUMBERS ? -most : -HALF_NUMBERS;
  return sizeOf(absoluteCoordinate(number)) <= limit ? number : number - sign;
}

// The number of steps to a coordinate from another one, which is in microdegrees. It may have more than 16 bits.
function relativeNumber(value, before, limit) {
  const step = STEP_MICRODEGREES * MICRODEGREE;
  const number = floorDivided(value - before * MICRODEGREE + step / 2n, step);
  const reached = before + STEP_MICRODEGREES * number;
  if (sizeOf(reached) <= limit) return number;
  return reached > 0n ? number - 1n : number + 1n;
}

class ReferenceWriting {
  constructor(reference, names) {
    this.reference = reference;
    this.names = names;
    this.isLine = reference.kind === "line";
    this.bytes = [];
  }

  text() {
    const { points } = this.reference;
    if (this.isLine && points.length > MOST_POINTS) throw new BadReference(`TooManyPoints ${points.length}`);
    if (points.length < 2 || (points.length > 2 && !this.isLine)) throw badElement(this.names.points);
    const legs = this.legs(points);
    const { flags, shares } = this.shares(legs[0], legs[legs.length - 1]);
    const roads = this.roads(points);
    this.bytes.push(this.isLine ? 0x0b : 0x2b);
    this.addPoints(points, roads, legs);
    this.bytes[this.bytes.length - 1] |= flags;
    return btoa(String.fromCharCode(...this.bytes, ...shares));
  }

  // Adds a number of so many bits, the highest bits first.
  add(number, bits) {
    const whole = BigInt.asUintN(bits, number);
    for (let shift = bits - 8; shift >= 0; shift -= 8) this.bytes.push(Number((whole >> BigInt(shift)) & 0xffn));
  }

  // The distance from each point to the next one, in units.
  legs(points) {
    return points.slice(0, -1).map(({ distance }, index) => {
      const length = this.length("distance", distance);
      if (length >= LONGEST_LEG) throw new BadReference(`LegTooLong ${index + 1}`);
      return length;
    });
  }

  // Class and form of each point; of a point along a line also the orientation and the side.
  roads(points) {
    const roads = points.map((point) => (this.whole("class", point.class, 7) << 3) | this.whole("form", point.form, 7));
    const { orientation, side } = this.reference;
    if (!this.isLine) {
      roads[0] |= (orientation === undefined ? 0 : this.whole("orientation", orientation, 3)) << 6;
      roads[1] |= (side === undefined ? 0 : this.whole("side", side, 3)) << 6;
    }
    return roads;
  }

  // Adds all points, in their order.
  addPoints(points, roads, legs) {
    const [longitude, latitude] = this.place(1, points[0]);
    const first = [absoluteNumber(longitude, MOST_LON), absoluteNumber(latitude, MOST_LAT)];
    for (const number of first) this.add(number, 24);
    let [lon, lat] = first.map(absoluteCoordinate);
    for (let index = 1; index < points.length; index += 1) {
      const [longitude, latitude] = this.place(index + 1, points[index]);
      const steps = [relativeNumber(longitude, lon, MOST_LON), relativeNumber(latitude, lat, MOST_LAT)];
      if (steps.some((step) => step < -32768n || step > 32767n)) throw new BadReference(`TooFar ${index + 1}`);
      lon += STEP_MICRODEGREES * steps[0];
      lat += STEP_MICRODEGREES * steps[1];
      const before = points[index - 1];
      const lowest = this.whole("lowest", before.lowest, 7);
      this.bytes.push(roads[index - 1], (lowest << 5) | this.sector(before), Number(legs[index - 1] / INTERVAL_UNITS));
      for (const step of steps) this.add(step, 16);
    }
    this.bytes.push(roads[roads.length - 1], this.sector(points[points.length - 1]));
  }

  // Longitude and latitude of the point with that number, in units.
  place(number, point) {
    const [longitude, latitude] = [unitsOf(point.longitude), unitsOf(point.latitude)];
    if (longitude === null || latitude === null) throw badElement(this.names[longitude !== null ? "latitude" : "longitude"]);
    if (sizeOf(longitude) > MOST_LON * MICRODEGREE || sizeOf(latitude) > MOST_LAT * MICRODEGREE) throw new BadReference(`OutOfRange ${number}`);
    return [longitude, latitude];
  }

  // The sector of the bearing: 360 degrees are 0.
  sector(point) {
    const bearing = unitsOf(point.bearing);
    if (bearing === null || bearing < 0n || bearing > CIRCLE_UNITS) throw badElement(this.names.bearing);
    return Number((bearing / SECTOR_UNITS) % 32n);
  }

  // The flags of the offsets that there are, and their shares of the first and of the last leg.
  shares(first, last) {
    const { positive, negative } = this.reference;
    const found = { flags: 0, shares: [] };
    const before = positive === undefined ? 0n : this.offset("positive", positive, first);
    if (before) {
      found.flags |= 0x40;
      found.shares.push(Number((before * 256n) / first));
    }
    const behind = negative === undefined ? 0n : this.offset("negative", negative, last);
    if (behind) {
      if (!this.isLine) throw badElement(this.names.negative);
      found.flags |= 0x20;
      found.shares.push(Number((behind * 256n) / last));
    }
    return found;
  }

  // An offset, which is shorter than its leg or 0, in units.
  offset(field, value, leg) {
    const offset = this.length(field, value);
    if (offset >= leg && offset) throw new BadReference(`OffsetTooLong ${this.names[field]}`);
    return offset;
  }

  length(field, value) {
    const length = unitsOf(value);
    if (length === null || length < 0n) throw badElement(this.names[field]);
    return length;
  }

  whole(field, value, most) {
    if (!(value >= 0 && value <= most)) throw badElement(this.names[field]);
    return value;
  }
}

function writtenReference(reference, names) {
  return new ReferenceWriting(reference, names).text();
}
