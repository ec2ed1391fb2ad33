export type Unit = "celsius" | "fahrenheit";

export interface Day {
  name: string;
  degrees: number;
  unit: Unit;
}

export interface Report {
  title: string;
  days: Day[];
}
