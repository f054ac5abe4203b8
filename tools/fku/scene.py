"""Draws surfaces and lines with VTK, as a PNG picture."""
import math

SURFACE, INSIDE, OUTLINE, FAINT, LOOP, WHITE = (
    (0.93, 0.78, 0.64), (0.75, 0.2, 0.2), (0.1, 0.25, 0.5), (0.6, 0.65, 0.72), (0.8, 0.1, 0.1), (1.0, 1.0, 1.0),
)  # fmt: skip

# With marked triangles red stands for these alone: insides are grey then.
MARK, GREY = (0.9, 0.05, 0.08), (0.45, 0.45, 0.48)

# The parts of a surface that has several: the hues of Okabe and Ito that eyes of all kinds tell apart, but for those
# near the red of an inside.
PARTS = [
    (0.9, 0.62, 0.0), (0.34, 0.71, 0.91), (0.0, 0.62, 0.45), (0.94, 0.89, 0.26), (0.0, 0.45, 0.7), (0.8, 0.47, 0.65),
]  # fmt: skip


def colour_of_part(number, count):
    """Gives the colour of a part, counted from 0, of a surface that has so many: red, green and blue from 0 to 1. After
    the last hue the first comes again, paler in the second round, darker in the third, and so on by turns.
    """
    if count == 1:
        return SURFACE
    hue, turn = PARTS[number % len(PARTS)], number // len(PARTS) % 3
    towards, share = [(0.0, 0.0), (1.0, 0.5), (0.0, 0.4)][turn]
    return tuple(round(it + share * (towards - it), 3) for it in hue)


def along(axis, points):
    """Gives how far points reach along an axis, down and up."""
    reach = [sum(a * b for a, b in zip(axis, point)) for point in points]
    return min(reach), max(reach)


class Scene:
    """What is to be drawn. Points are (x, y, z) in the units of a surface."""

    def __init__(self, vtk):
        self.vtk = vtk
        self.renderer = vtk.vtkRenderer()
        self.renderer.SetBackground(*WHITE)
        self.renderer.UseFXAAOn()
        self.points = []

    def vtk_points(self, points):
        """Gives points as VTK has them, and keeps them, so that all are seen."""
        made = self.vtk.vtkPoints()
        made.SetDataTypeToDouble()
        for point in points:
            made.InsertNextPoint(*point)
        self.points += points
        return made

    def add(self, source, colour, width=None):
        """Adds what a filter gives, in a colour; lines get a width in dots."""
        mapper = self.vtk.vtkPolyDataMapper()
        mapper.SetInputConnection(source.GetOutputPort())
        mapper.ScalarVisibilityOff()
        actor = self.vtk.vtkActor()
        actor.SetMapper(mapper)
        actor.GetProperty().SetColor(*colour)
        if width:
            mapper.SetResolveCoincidentTopologyToPolygonOffset()
            mapper.SetRelativeCoincidentTopologyLineOffsetParameters(-2, -200)
            actor.GetProperty().SetLineWidth(width)
            actor.GetProperty().LightingOff()
        self.renderer.AddActor(actor)
        return actor

    def surface(self, mesh, with_edges, opacity, marks=None):
        """Adds a mesh; where it has several parts, each in a colour of its own. What is seen from inside is red, so
        that a triangle that is turned wrongly shows. Caps are flat, and share no shading with the walls beside them.

        Where there are marks, numbers of triangles counted from 0, these are red on both sides, and opaque always.
        """
        points = self.vtk_points(mesh.points)
        inside, marked = (INSIDE if marks is None else GREY), set(marks or ())
        first, red = 0, []
        for at, part in enumerate(mesh.parts):
            caps, walls = [], []
            for number, triangle in enumerate(part, first):
                level = len({mesh.points[it][2] for it in triangle}) == 1
                (red if number in marked else caps if level else walls).append(triangle)
            first += len(part)
            colour = (*colour_of_part(at, len(mesh.parts)), opacity)
            for triangles in filter(None, (walls, caps)):
                self.triangles(points, triangles, with_edges, colour, inside)
        if red:
            self.triangles(points, red, with_edges, (*MARK, 1.0), MARK)

    def triangles(self, points, triangles, with_edges, colour, inside):
        """Adds triangles, shaded as one smooth surface but for its sharp edges. The last number of the colour is the
        opacity.
        """
        vtk = self.vtk
        cells = vtk.vtkCellArray()
        for triangle in triangles:
            cells.InsertNextCell(3, triangle)
        data = vtk.vtkPolyData()
        data.SetPoints(points)
        data.SetPolys(cells)
        normals = vtk.vtkPolyDataNormals()
        normals.SetInputData(data)
        normals.SetFeatureAngle(50)
        normals.ConsistencyOff()
        actor = self.add(normals, colour[:3])
        actor.GetProperty().SetOpacity(colour[3])
        actor.GetProperty().SetEdgeVisibility(with_edges)
        actor.GetProperty().SetEdgeColor(*FAINT)
        behind = vtk.vtkProperty()
        behind.SetColor(*inside)
        behind.SetOpacity(colour[3])
        actor.SetBackfaceProperty(behind)

    def lines(self, rings, colour, width):
        """Adds closed lines through lists of points."""
        vtk = self.vtk
        points, cells = [], vtk.vtkCellArray()
        for ring in rings:
            first = len(points)
            points += ring
            places = [*range(first, len(points)), first]
            cells.InsertNextCell(len(places), places)
        data = vtk.vtkPolyData()
        data.SetPoints(self.vtk_points(points))
        data.SetLines(cells)
        source = vtk.vtkTrivialProducer()
        source.SetOutput(data)
        self.add(source, colour, width)

    def look(self, azimuth, elevation, shape):
        """Points the camera at all of it: turned by degrees round the height from the front, and up; nothing is cut
        off. The shape is the picture's width by its height.
        """
        turn, rise = math.radians(azimuth - 90), math.radians(elevation)
        towards = (math.cos(turn) * math.cos(rise), math.sin(turn) * math.cos(rise), math.sin(rise))
        right = (-math.sin(turn), math.cos(turn), 0.0)
        up = (-math.cos(turn) * math.sin(rise), -math.sin(turn) * math.sin(rise), math.cos(rise))
        spans = [along(axis, self.points) for axis in (right, up, towards)]
        middles = [(low + high) / 2 for low, high in spans]
        wide, tall, deep = ((high - low) / 2 for low, high in spans)
        middle = [sum(m * axis[k] for m, axis in zip(middles, (right, up, towards))) for k in range(3)]
        camera = self.renderer.GetActiveCamera()
        camera.ParallelProjectionOn()
        camera.SetFocalPoint(*middle)
        camera.SetPosition(*(m + (deep + wide + tall + 1) * t for m, t in zip(middle, towards)))
        camera.SetViewUp(*up)
        camera.SetParallelScale(1.08 * max(tall, wide / shape, 1.0))
        self.renderer.ResetCameraClippingRange()

    def picture(self, width, height):
        """Draws it, and gives the bytes of the PNG picture."""
        vtk = self.vtk
        window = vtk.vtkRenderWindow()
        window.SetOffScreenRendering(1)
        window.SetMultiSamples(0)
        window.SetSize(width, height)
        window.AddRenderer(self.renderer)
        window.Render()
        picture = vtk.vtkWindowToImageFilter()
        picture.SetInput(window)
        picture.ReadFrontBufferOff()
        writer = vtk.vtkPNGWriter()
        writer.WriteToMemoryOn()
        writer.SetInputConnection(picture.GetOutputPort())
        writer.Write()
        return bytes(memoryview(writer.GetResult()))
