package Quantities {
    doc /* What a part can be measured by. */
    abstract datatype Quantity;
    datatype Mass :> Quantity;
    datatype Torque :> Quantity;
    feature total : Mass;
    alias Weight for Mass;
}
