(* Linked in front of OCaml's own compiler: each of its minor collections is checked. *)
external certify_start : int -> int -> unit = "certify_start"
external certify_stop : unit -> unit = "certify_stop"

let () =
  certify_start 0 0;
  at_exit certify_stop
