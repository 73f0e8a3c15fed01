// What an image answers to a frame.
#pragma once

enum class Insert { Stored, Duplicate, Below, OverWindow, Overlap, CrossesTerm };
