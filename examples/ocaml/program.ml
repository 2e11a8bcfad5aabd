(* Allocates lists, maps, tables, strings, closures, lazy values, weak arrays and what else OCaml's heap has, and keeps a part of it.
   program FAULT SIZE ROUNDS FLIPS: the number of a fault, 0 for none; how much each round makes; how many bits the self-test flips. *)
external certify_start : int -> int -> unit = "certify_start"
external certify_stop : unit -> unit = "certify_stop"
external certify_compact : unit -> unit = "certify_compact"
external certify_last : int -> unit = "certify_last"
external store_without_barrier : 'a array -> 'a -> unit = "store_without_barrier"
external keep_in_c : 'a -> unit = "keep_in_c"

type words

external abstract_block : int -> words = "abstract_block"

let argument n default = if Array.length Sys.argv > n then int_of_string Sys.argv.(n) else default
let fault = argument 1 0
let size = argument 2 20000
let rounds = argument 3 20
let flips = argument 4 0

module Names = Map.Make (String)

type shape = Circle of float | Square of { mutable side : float; name : string } | Group of shape list
type node = { mutable next : node option; value : int64; label : string }

type entry = {
  shape : shape;
  step : int -> int;
  later : int lazy_t;
  sides : float array;
  words : words;
  number : float;
}

let table : (string, entry) Hashtbl.t = Hashtbl.create 16
let names = ref Names.empty
let ring = ref { next = None; value = 0L; label = "first" }
let weak : string Weak.t = Weak.create 4000
let strong = Array.make 4000 ""
let weak_steps : (int -> int) Weak.t = Weak.create 4000
let finalised = ref 0

(* A block of two closures: a reference to the second one points into the block. *)
let parity k =
  let rec even n = if n = 0 then k else odd (n - 1)
  and odd n = if n = 0 then -k else even (n - 1) in
  if k mod 2 = 0 then even else odd

let shape_of i key =
  match i mod 3 with
  | 0 -> Circle (float_of_int i)
  | 1 -> Square { side = 1.5 *. float_of_int i; name = key }
  | _ -> Group [ Circle 1.0; Square { side = 2.0; name = "in" ^ key } ]

let later_of i =
  let later = lazy (i * 7) in
  if i mod 5 = 0 then ignore (Lazy.force later);
  later

let entry_of i key =
  { shape = shape_of i key; step = parity (i / 4); later = later_of i; sides = Array.init 3 (fun k -> float_of_int (i + k)); words = abstract_block i;
    number = float_of_int i }

(* Half of the weak references have a target that lives on. *)
let refer_weakly i key =
  let place = i mod 4000 in
  Weak.set weak place (Some key);
  if i mod 2 = 0 then strong.(place) <- key

(* Some of these functions are pointers into a block of closures. *)
let refer_to_step i entry = Weak.set weak_steps (i mod 4000) (Some entry.step)

(* Nothing but its finaliser keeps this value. *)
let finalise_alone i key = Gc.finalise (fun node -> if node.label <> key then incr finalised) { next = None; value = Int64.of_int i; label = key }

(* The function does not get the value, and does not keep it alive. A third of these values live on. *)
let last_called = ref 0
let living = ref []

let finalise_last i key =
  let node = { next = None; value = Int64.of_int i; label = key } in
  Gc.finalise_last (fun () -> incr last_called) node;
  if i mod 270 = 45 then living := node :: !living

let link i key =
  let node = { next = Some !ring; value = Int64.of_int (-i); label = key } in
  (match !ring.next with Some other when i mod 22 = 0 -> other.next <- Some node | _ -> ());
  if i mod 110 = 0 then Gc.finalise (fun _ -> incr finalised) node;
  ring := node

let fill round =
  for i = 0 to size - 1 do
    let key = "key" ^ string_of_int ((round * size) + i) in
    let entry = entry_of i key in
    if i mod 4 = 0 then Hashtbl.replace table key entry;
    if i mod 7 = 0 then names := Names.add key (-i) !names;
    if i mod 9 = 0 then refer_weakly i key;
    if i mod 9 = 4 then refer_to_step i entry;
    if i mod 11 = 0 then link i key;
    if i mod 90 = 0 then finalise_alone i key;
    if i mod 90 = 45 then finalise_last i key;
    if i mod 100 = 0 then keep_in_c (key, i);
    match entry.shape with Square square when i mod 9 = 1 -> square.side <- 0.0 | _ -> ()
  done

let forget () =
  Hashtbl.filter_map_inplace (fun key entry -> if Hashtbl.hash key mod 3 = 0 then None else Some entry) table;
  names := Names.filter (fun key _ -> String.length key mod 2 = 0) !names

let old_array = Array.make 300 "old"

let () =
  Gc.full_major ();
  certify_start fault flips;
  for round = 1 to rounds do
    if fault = 4 && round = 3 then store_without_barrier old_array ("young" ^ string_of_int round);
    fill round;
    if round mod 4 = 0 then Hashtbl.reset table;
    if round mod 4 = 0 then names := Names.empty
  done;
  Gc.minor ();
  certify_stop ();
  Gc.minor ();
  certify_last !last_called;
  living := [];
  certify_compact ();
  fill 99;
  forget ();
  certify_compact ();
  Printf.printf "%d entries, %d names\n" (Hashtbl.length table) (Names.cardinal !names)
