// Makes a model with Open CASCADE and compares what it reads.
//
//   model make FILE VERSION   writes a filleted box with a hole, meshed, and used three times under locations
//   model same FILE FILE      reads both, and writes each again: 0 where the two texts are one
//
// VERSION is 1, 2 or 3, the version of the BREP text format; a text of version 3 has the normals of the meshes.

#include <BRepAlgoAPI_Cut.hxx>
#include <BRepBuilderAPI_Transform.hxx>
#include <BRepFilletAPI_MakeFillet.hxx>
#include <BRepMesh_IncrementalMesh.hxx>
#include <BRepPrimAPI_MakeBox.hxx>
#include <BRepPrimAPI_MakeCylinder.hxx>
#include <BRepTools.hxx>
#include <BRep_Builder.hxx>
#include <BRep_Tool.hxx>
#include <Poly_Triangulation.hxx>
#include <TopExp_Explorer.hxx>
#include <TopTools_FormatVersion.hxx>
#include <TopoDS.hxx>
#include <TopoDS_Compound.hxx>
#include <gp_Ax1.hxx>
#include <gp_Ax2.hxx>
#include <gp_Trsf.hxx>

#include <cstring>
#include <fstream>
#include <iostream>
#include <sstream>
#include <string>

// A box with a hole, all of whose straight edges are rounded.
static TopoDS_Shape filletedPart() {
  const TopoDS_Shape box = BRepPrimAPI_MakeBox(40., 30., 20.).Shape();
  const gp_Ax2 axis(gp_Pnt(20., 15., -1.), gp_Dir(0., 0., 1.));
  const TopoDS_Shape hole = BRepPrimAPI_MakeCylinder(axis, 6., 22.).Shape();
  BRepFilletAPI_MakeFillet fillet(box);
  for (TopExp_Explorer edge(box, TopAbs_EDGE); edge.More(); edge.Next())
    fillet.Add(2., TopoDS::Edge(edge.Current()));
  return BRepAlgoAPI_Cut(fillet.Shape(), hole).Shape();
}

// The part as it is, moved, and turned and moved, in one compound.
static TopoDS_Shape placedParts(const TopoDS_Shape& part) {
  gp_Trsf moved, turned;
  moved.SetTranslation(gp_Vec(60., 0., 0.));
  turned.SetRotation(gp_Ax1(gp_Pnt(0., 0., 0.), gp_Dir(0., 0., 1.)), 0.5);
  BRep_Builder builder;
  TopoDS_Compound parts;
  builder.MakeCompound(parts);
  builder.Add(parts, part);
  builder.Add(parts, part.Located(TopLoc_Location(moved)));
  builder.Add(parts, part.Located(TopLoc_Location(moved) * TopLoc_Location(turned)).Reversed());
  return parts;
}

static TopTools_FormatVersion versionOf(const char* word) {
  if (std::strcmp(word, "3") == 0) return TopTools_FormatVersion_VERSION_3;
  return std::strcmp(word, "2") == 0 ? TopTools_FormatVersion_VERSION_2 : TopTools_FormatVersion_VERSION_1;
}

static bool write(const TopoDS_Shape& shape, const char* file, TopTools_FormatVersion version) {
  return BRepTools::Write(shape, file, Standard_True, version == TopTools_FormatVersion_VERSION_3, version);
}

// Gives each mesh of the part normals, which versions before 3 don't write.
static void addNormals(const TopoDS_Shape& part) {
  for (TopExp_Explorer face(part, TopAbs_FACE); face.More(); face.Next()) {
    TopLoc_Location location;
    const Handle(Poly_Triangulation) mesh = BRep_Tool::Triangulation(TopoDS::Face(face.Current()), location);
    if (!mesh.IsNull()) mesh->ComputeNormals();
  }
}

static int make(const char* file, const char* version) {
  const TopoDS_Shape part = filletedPart();
  BRepMesh_IncrementalMesh(part, 0.5);
  addNormals(part);
  return write(placedParts(part), file, versionOf(version)) ? 0 : 1;
}

// What Open CASCADE writes of the shape that it reads.
static bool textOf(const char* file, std::string& text) {
  TopoDS_Shape shape;
  BRep_Builder builder;
  if (!BRepTools::Read(shape, file, builder) || shape.IsNull()) return false;
  std::ostringstream out;
  BRepTools::Write(shape, out, Standard_True, Standard_False, TopTools_FormatVersion_VERSION_2);
  text = out.str();
  return true;
}

static int same(const char* first, const char* second) {
  std::string one, other;
  if (!textOf(first, one) || !textOf(second, other)) {
    std::cerr << "a file isn't read\n";
    return 2;
  }
  if (one != other) {
    std::cerr << first << " and " << second << " hold different shapes\n";
    return 1;
  }
  return 0;
}

int main(int count, char** words) {
  if (count == 4 && std::strcmp(words[1], "make") == 0) return make(words[2], words[3]);
  if (count == 4 && std::strcmp(words[1], "same") == 0) return same(words[2], words[3]);
  std::cerr << "usage: model make FILE VERSION; model same FILE FILE\n";
  return 2;
}
