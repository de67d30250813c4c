package Vehicles {
    private import Quantities::*;

    part def Engine {
        attribute mass : Mass;
        attribute torque : Torque;
    }

    part def Wheel {
        attribute mass : Weight;
    }

    abstract part def Vehicle {
        attribute mass : Mass :> total;
        part engine : Engine[1];
        part wheels : Wheel[4] ordered;
        attribute drivenBy :> engine.torque;
    }

    part def Truck :> Vehicle {
        part wheels :>> Vehicle::wheels[6];
        part trailer : Trailer[0..1];
    }

    requirement def Light {
        doc /* No vehicle is heavier than it may be. */
        subject vehicle : Vehicle;
        attribute limit : Mass;
        require constraint { vehicle.mass <= limit }
    }

    part rig : Truck {
        part :>> engine;
    }
}
